/*
 * This program recovers the secret of each vector, and makes each other call of shamir.h with an example. It compares the
 * answers with values that other programs computed.
 *
 *     cc -O2 test.c shamir.c && ./a.out
 *
 * It prints each difference, and its exit status is 1 if there is any.
 *
 * SPDX-License-Identifier: MIT
 */
#include <stdio.h>
#include <string.h>

#include "shamir.h"

#define KEY "TREZOR"
#define EM "email\nemerald\nemission\nemperor\nemphasis\nemployer\nempty\n"
#define SECRET "bb54aac4b89dc868ba37d9cc21b2cece"
#define PLAN "2/2of3,1of1,1of1"
#define RANDOM "000102030405060708090a0b0c0d0e0f10111213141516171819"
#define FIRST \
    "academic aluminum acrobat leaf buyer drink heat negative damage union purchase photo " \
    "inmate training amazing yield bucket wrote mule cluster\n"
#define SECOND \
    "academic aluminum acrobat lily august piece column laser headset unusual blimp nuclear " \
    "sweater criminal credit eyebrow trouble silent axis skin\n"
#define THIRD \
    "academic aluminum acrobat lungs dive behavior mobile ting perfect ultimate weapon join " \
    "paper involve clinic acrobat jerky preach gross usual\n"
#define FOURTH \
    "academic aluminum beard leader chest elite grant group club deploy increase divorce " \
    "puny cylinder romp frequent crush ruler erode bucket\n"
#define FIFTH \
    "academic aluminum ceramic leader cylinder decorate mobile devote echo finger program firm " \
    "starting dwarf grumpy harvest enforce raisin sprinkle phantom\n"

#define ANEW \
    "cleanup pecan academic academic broken exact editor public best party forecast darkness " \
    "burning yelp window mama warmth market laundry response\n"

/* A vector: its mnemonics in lines, and its secret in hexadecimal digits. It has none if the mnemonics are to be refused. */
typedef struct {
    const char *lines;
    const char *secret;
} vector;

static const vector vectors[] = {
    {"escape aluminum academic academic zero wrap founder enemy senior vexed marathon drift yoga skin seafood boring goat elephant burning prune lend force erode\n",
     "97af6c112524e4442c6285dda77b68593529cb30"},
    {"frequent enlarge academic academic easel zero cubic remember frequent subject photo income painting march sunlight focus move device exotic royal\n",
     "3a999f20b1a65c34667ace48e264e8bc"},
    {"frequent enlarge academic academic lawsuit zero cubic remember frequent subject photo income painting march sunlight focus move magazine gasoline twin\n",
     ""},
    {"frequent enlarge academic academic romantic zero cubic remember frequent subject photo income painting march sunlight focus move expand being museum\n",
     ""},
    {"frequent enlarge academic academic zero zero cubic remember frequent subject photo income painting march sunlight focus move verdict dramatic reward\n",
     ""},
    {"legend wisdom academic academic award zero location marvel garbage chubby lungs grownup forget visitor auction estimate iris wits stadium corner member spew triumph force library\n",
     "4687efd63735b5b1ac06c124dd91e84989597f704ece"},
    {"legend wisdom academic academic carve zero location marvel garbage chubby lungs grownup forget visitor auction estimate iris wits stadium corner member spew chew arcade beam\n",
     ""},
    {"legend wisdom academic academic deadline zero location marvel garbage chubby lungs grownup forget visitor auction estimate iris wits stadium corner member spew item voice physics\n",
     ""},
    {"legend wisdom academic academic express zero location marvel garbage chubby lungs grownup forget visitor auction estimate iris wits stadium corner member spew slavery adjust shaft\n",
     ""},
    {"legend wisdom academic academic mental zero location marvel garbage chubby lungs grownup forget visitor auction estimate iris wits stadium corner member spew perfect triumph biology\n",
     ""},
    {"legend wisdom academic academic zero zero location marvel garbage chubby lungs grownup forget visitor auction estimate iris wits stadium corner member spew steady episode trend\n",
     ""},
    {"grasp garden academic academic award zero nylon rival piece branch legs endless submit obesity election priority pink jewelry deal else marathon laser platform owner airline chew repeat trial budget thorn rescue knit frequent\n",
     "59cabd947b9106bf3c626d8c559ae46e1e456488d9be7d79c63cf48266a0a76f"},
    {"grasp garden academic academic carve zero nylon rival piece branch legs endless submit obesity election priority pink jewelry deal else marathon laser platform owner airline chew repeat trial budget thorn very species boundary\n",
     ""},
    {"grasp garden academic academic deadline zero nylon rival piece branch legs endless submit obesity election priority pink jewelry deal else marathon laser platform owner airline chew repeat trial budget thorn credit chest simple\n",
     ""},
    {"grasp garden academic academic express zero nylon rival piece branch legs endless submit obesity election priority pink jewelry deal else marathon laser platform owner airline chew repeat trial budget thorn observe salt idea\n",
     ""},
    {"grasp garden academic academic mental zero nylon rival piece branch legs endless submit obesity election priority pink jewelry deal else marathon laser platform owner airline chew repeat trial budget thorn wireless academic alien\n",
     ""},
    {"grasp garden academic academic zero zero nylon rival piece branch legs endless submit obesity election priority pink jewelry deal else marathon laser platform owner airline chew repeat trial budget thorn adequate exhaust voting\n",
     ""},
    {"vanish describe academic academic afraid zero strategy yoga boundary negative coastal knife acid dismiss reaction animal smear alto calcium benefit large debut\n",
     "81229eca029529a86240b7fa099187c11564"},
    {"vanish describe academic academic alto zero strategy yoga boundary negative coastal knife acid dismiss reaction animal smear alto calcium both volume bike\n",
     ""},
    {"vanish describe academic academic anxiety zero strategy yoga boundary negative coastal knife acid dismiss reaction animal smear alto calcium burden holy inside\n",
     ""},
    {"vanish describe academic academic bike zero strategy yoga boundary negative coastal knife acid dismiss reaction animal smear alto calcium adequate forget review\n",
     ""},
    {"vanish describe academic academic class zero strategy yoga boundary negative coastal knife acid dismiss reaction animal smear alto calcium decision describe course\n",
     ""},
    {"vanish describe academic academic elite zero strategy yoga boundary negative coastal knife acid dismiss reaction animal smear alto calcium fitness traveler academic\n",
     ""},
    {"vanish describe academic academic likely zero strategy yoga boundary negative coastal knife acid dismiss reaction animal smear alto calcium observe failure faint\n",
     ""},
    {"vanish describe academic academic zero zero strategy yoga boundary negative coastal knife acid dismiss reaction animal smear alto calcium teammate depend military\n",
     ""},
    {"burning upgrade academic academic acquire zero western darkness believe salt jewelry recover mobile amuse garbage legal dough swing penalty sharp club making argue voter example purple beaver\n",
     "f6d4a2056a6ea32ecceaa3da5121be66fcd0f7581f88db45"},
    {"burning upgrade academic academic adapt zero western darkness believe salt jewelry recover mobile amuse garbage legal dough swing penalty sharp club making argue voter tension destroy phantom\n",
     ""},
    {"burning upgrade academic academic adorn zero western darkness believe salt jewelry recover mobile amuse garbage legal dough swing penalty sharp club making argue voter benefit romantic juice\n",
     ""},
    {"burning upgrade academic academic aide zero western darkness believe salt jewelry recover mobile amuse garbage legal dough swing penalty sharp club making argue voter verdict pink segment\n",
     ""},
    {"burning upgrade academic academic ambition zero western darkness believe salt jewelry recover mobile amuse garbage legal dough swing penalty sharp club making argue voter decorate luck rhyme\n",
     ""},
    {"burning upgrade academic academic beam zero western darkness believe salt jewelry recover mobile amuse garbage legal dough swing penalty sharp club making argue voter raspy step exclude\n",
     ""},
    {"burning upgrade academic academic center zero western darkness believe salt jewelry recover mobile amuse garbage legal dough swing penalty sharp club making argue voter research grocery pitch\n",
     ""},
    {"burning upgrade academic academic ecology zero western darkness believe salt jewelry recover mobile amuse garbage legal dough swing penalty sharp club making argue voter painting briefing garden\n",
     ""},
    {"burning upgrade academic academic leaves zero western darkness believe salt jewelry recover mobile amuse garbage legal dough swing penalty sharp club making argue voter music thorn very\n",
     ""},
    {"burning upgrade academic academic zero zero western darkness believe salt jewelry recover mobile amuse garbage legal dough swing penalty sharp club making argue voter empty finance sack\n",
     ""},
    {"watch aluminum academic academic acquire zero upgrade unfold learn adequate decision texture mouse guilt surface endorse stick flavor admit adequate race ambition purple acrobat daisy extend glimpse empty script easy width medical prune woman hunting kind brother platform scene lend theater hamster petition fake senior arcade empty repair taxi intend peanut demand capture excuse thunder usual equip income clay\n",
     "791201efad51361e344a7296fe741403d5b108ed14981694d9a6c95e276f302c0f105199ea684e12a8dc386cc99d0460457b12d979711836f545929c273d0fdf"},
    {"watch aluminum academic academic adapt zero upgrade unfold learn adequate decision texture mouse guilt surface endorse stick flavor admit adequate race ambition purple acrobat daisy extend glimpse empty script easy width medical prune woman hunting kind brother platform scene lend theater hamster petition fake senior arcade empty repair taxi intend peanut demand capture excuse thunder usual rescue salon knife\n",
     ""},
    {"watch aluminum academic academic adorn zero upgrade unfold learn adequate decision texture mouse guilt surface endorse stick flavor admit adequate race ambition purple acrobat daisy extend glimpse empty script easy width medical prune woman hunting kind brother platform scene lend theater hamster petition fake senior arcade empty repair taxi intend peanut demand capture excuse thunder usual prize believe mule\n",
     ""},
    {"watch aluminum academic academic aide zero upgrade unfold learn adequate decision texture mouse guilt surface endorse stick flavor admit adequate race ambition purple acrobat daisy extend glimpse empty script easy width medical prune woman hunting kind brother platform scene lend theater hamster petition fake senior arcade empty repair taxi intend peanut demand capture excuse thunder usual listen public elder\n",
     ""},
    {"watch aluminum academic academic ambition zero upgrade unfold learn adequate decision texture mouse guilt surface endorse stick flavor admit adequate race ambition purple acrobat daisy extend glimpse empty script easy width medical prune woman hunting kind brother platform scene lend theater hamster petition fake senior arcade empty repair taxi intend peanut demand capture excuse thunder usual solution visitor transfer\n",
     ""},
    {"watch aluminum academic academic beam zero upgrade unfold learn adequate decision texture mouse guilt surface endorse stick flavor admit adequate race ambition purple acrobat daisy extend glimpse empty script easy width medical prune woman hunting kind brother platform scene lend theater hamster petition fake senior arcade empty repair taxi intend peanut demand capture excuse thunder usual keyboard justice robin\n",
     ""},
    {"watch aluminum academic academic center zero upgrade unfold learn adequate decision texture mouse guilt surface endorse stick flavor admit adequate race ambition purple acrobat daisy extend glimpse empty script easy width medical prune woman hunting kind brother platform scene lend theater hamster petition fake senior arcade empty repair taxi intend peanut demand capture excuse thunder usual chemical glance beam\n",
     ""},
    {"watch aluminum academic academic ecology zero upgrade unfold learn adequate decision texture mouse guilt surface endorse stick flavor admit adequate race ambition purple acrobat daisy extend glimpse empty script easy width medical prune woman hunting kind brother platform scene lend theater hamster petition fake senior arcade empty repair taxi intend peanut demand capture excuse thunder usual owner extra exclude\n",
     ""},
    {"watch aluminum academic academic leaves zero upgrade unfold learn adequate decision texture mouse guilt surface endorse stick flavor admit adequate race ambition purple acrobat daisy extend glimpse empty script easy width medical prune woman hunting kind brother platform scene lend theater hamster petition fake senior arcade empty repair taxi intend peanut demand capture excuse thunder usual tidy detailed voice\n",
     ""},
    {"watch aluminum academic academic zero zero upgrade unfold learn adequate decision texture mouse guilt surface endorse stick flavor admit adequate race ambition purple acrobat daisy extend glimpse empty script easy width medical prune woman hunting kind brother platform scene lend theater hamster petition fake senior arcade empty repair taxi intend peanut demand capture excuse thunder usual cylinder numerous hybrid\n",
     ""},
    {"\n",
     ""},
    {"mortgage\n",
     ""},
    {"prize disaster academic academic\n",
     ""},
    {"earth moment academic academic receiver omit valid\n",
     ""},
    {"cylinder easy academic academic academic luck sniff evidence\n",
     ""},
    {"item flea academic academic carbon lying hybrid spill spine terminal blessing general\n",
     ""},
    {"analysis race academic academic story metric gray together gray image endorse duke umbrella hospital alien\n",
     ""},
    {"listen biology academic academic alien piece mouse tadpole genius best cylinder lyrics hand fraction swing threaten froth\n",
     ""},
    {"knit olympic academic academic acquire filter unwrap shrimp drink arena sniff intend bedroom check cubic airport scared involve unfair\n",
     ""},
    {"various enlarge academic academic alto entrance insect manual fatal craft public black object loud wealthy curious prune prize necklace angel\n",
     "ed4f53fa1e7e229c6e1821cd970aa4f8"},
    {"practice busy academic academic academic black closet lair invasion biology frequent nervous view briefing liberty helpful roster bolt kidney senior says\n",
     ""},
    {"pleasure smoking academic academic acne evil negative faint empty window parking industry album smear extend negative infant fancy lizard usual single buyer\n",
     "1520c75517285fee52e66429af5349c99f1f"},
    {"shaft indicate academic academic dwarf acid holiday duke energy spine anxiety aspect organize exchange sympathy enlarge olympic enforce false payroll desert magazine wavy\n",
     "b977577f26e1615fb9ced02dfe73010cdbf62c0a"},
    {"observe category academic academic academic election decrease aircraft adapt gray bulb vegan museum spider threaten privacy airline distance envelope impulse being focus humidity item\n",
     ""},
    {"fatigue scandal academic academic anatomy calcium impact group recover similar duration swimming medal debut strategy champion airline vintage emphasis filter vitamins garbage exotic spray fused\n",
     "eadc59b970c4a17f7eb5519e6e0644a72caa76c48625"},
    {"making leader academic academic academic adorn valuable august snapshot argue luck desire climate glad percent language platform mother privacy smirk firm swimming teaspoon ocean ounce scatter\n",
     ""},
    {"loan again academic academic acquire elite kidney human amuse mobile fiber robin prepare grant medal device physics junk style news reunion brother agency snake thorn bumpy curly\n",
     "71d2cc193d8a27d8cf8a2c0069e7e863f287c1fbcaae1ecc"},
    {"elegant prospect academic academic album loan group enlarge debut coding grill genuine gums hush amuse viral twin starting package treat grumpy forbid elite hairy testify maximum museum auction\n",
     "660733d67409085bcd7c7c4474df5fc9da2886cec24ff021c5b9"},
    {"liquid olympic academic academic academic artwork emperor switch receiver dough explain desktop invasion evoke kernel slap hanger beard example explain photo tenant tadpole stilt quiet glad webcam promise minister\n",
     ""},
    {"premium smoking academic academic acid luxury decrease scandal arena kitchen credit goat sled identify mountain greatest advocate retreat unknown verify agree silent company elegant pistol upgrade render chest imply funding\n",
     "6fd6d303d371047279bdb62723ec4dffbae86f0d03caee2cc609824e"},
    {"venture busy academic academic bedroom unkind single rocky drove kernel purchase crisis cards fangs maximum climate discuss august traffic agree reward empty anatomy estate blessing reward national guard pecan spine lips\n",
     "3fd3549853e9079e343af88134a689b081a2660a9e883d37e9ea5d9a1d28"},
    {"wrap lunch academic academic academic column robin member legs marvel season slavery welcome duckling elephant lamp isolate impact hush ugly island cause species adequate military math leaf skin alive sunlight easel class\n",
     ""},
    {"acrobat moment academic academic adequate hearing system replace typical regular hand dismiss scandal elevator pulse pupal vegan aircraft dryer dream crisis gesture drift element crazy bishop pharmacy envelope military paces glen exact group\n",
     "b82dc737a014ebaf0f5b89aa41eb2e9bd68ea27166f23c9f8b88b698298339c9"},
    {"often category academic academic academic award mortgage mountain wits playoff evil slim much civil company drove flame mailman regular civil fatigue impact darkness wrote fantasy freshman painting withdraw slim tendency learn evil sharp fishing\n",
     ""},
    {"frozen crunch academic academic academic package column favorite evidence dwarf beam scholar visual email predator stilt helpful estate papa genius twice romp goat escape teaspoon roster graduate square umbrella craft theater smoking unusual legend lunch\n",
     "c6f78f1011bd7e6f55a065df0804a1e2843201eaeb049ebd49196f8bd2ee7422c848"},
    {"solution romp academic academic airline legs brave vanish require paid check academic cinema meaning verdict sidewalk warmth herd oasis ordinary index expect vexed learn tension filter camera tenant subject spit involve prospect dismiss spit program vampire\n",
     "046ff8e588a67e00572c60a0d1548be4a2b0d99ca4623fda9188c3d0dc546f42c1c7dcdb"},
    {"drift pregnant academic academic academic database finger drift alive furl duckling segment argue raisin salon dress graduate railroad rich expect coding midst square closet axis pencil elder privacy society champion smear learn prune walnut union criminal cultural\n",
     ""},
    {"angel garden academic academic acne guard decrease wireless very leaves cubic grief miracle fluff spirit warn repeat either justice dryer slap chew duration morning alto pulse downtown payroll temple snapshot humidity duckling ruin bulge revenue tidy academic market\n",
     "0961dc872c4add17a27e1ee6fd7540378671f85112181000ecdf5e75fb8550c8e00ebd06d7a6"},
    {"ambition single academic academic resident laser beam knit exercise garbage news actress unkind prevent alarm cards emperor document talent seafood evoke cluster ruler impact voice facility scroll image lawsuit pickup lyrics silver standard ting mother holiday kernel chest genre\n",
     "8190a0eb677da3acf3feca9eb370a225ca4f9500fb121183402096f6afdf05c389cab9f0f19b51d0"},
    {"chew senior academic academic academic prize prevent prepare float alarm length testify metric slim romp modern march both luck system welcome fumes visitor tolerate impulse heat body dominant fiction unfold segment endorse tracks dragon behavior pacific mobile uncover mixed making\n",
     ""},
    {"envy pecan academic academic august quick patent spark glen liberty herd advance sled airline quarter platform venture fridge agency system daisy diploma sniff piece medal burden apart exhaust volume loud piece wrote prayer method beard best junior exotic public imply raisin\n",
     "1d8bab8cab1bc3cd8689956c787d7f7760be7fa6d61d8d2be4fd9cb6c43a2a3b026fd085441f4334fa4f"},
    {"glen easy academic academic academic advocate sidewalk always tolerate adapt temple quantity false obesity plot superior jacket language owner suitable tracks diet level debris rhythm shadow envy midst filter plot insect dress firefly sweater music funding network loyalty loud cleanup daisy juice\n",
     ""},
    {"bumpy single academic academic academic visitor heat hospital hairy scramble snake frozen divorce guilt fake crunch dining tofu lilac bulb desert curly memory clothes unknown easy salon various mansion slap crucial vitamins fumes coal taste laden watch analysis browser prospect crunch glasses usher\n",
     "26b33deff595c7cc62164f3ee6345d7886b1a851a851840e98e7883ed400cf3a6e1fac2d66fdb3a401bb79c4"},
    {"prune branch academic academic clothes terminal legend trust froth fridge entrance energy kitchen toxic upstairs fraction being rhyme likely formal benefit pipeline usual speak midst numb promise dynamic elbow greatest august fluff emission mailman purple careful senior grin program triumph scandal geology easel woman\n",
     "bfe5dfb10b7a0237e967d3309f5dcaaaded07281079f569e088877b95988c277369bf7b74d769f1c79dcd747f3e4"},
    {"trouble apart academic academic academic early canyon item express soldier rebuild pleasure sidewalk inmate lamp envy pancake tidy quantity device false artist eclipse daughter fact email domain literary order nuclear likely devote scholar fantasy plastic physics ordinary flavor ordinary sled remember receiver adorn manual anxiety\n",
     ""},
    {"manual recover academic academic academic black worthy smart iris carpet dictate advocate exceed diagnose script ivory screw spine cleanup mailman broken branch plan false ruler album daughter index drove junior cinema lift emphasis exhaust moment timber jacket withdraw slavery aluminum yield born ladle union forget process\n",
     "6a4f2a354c1b5bdd0024bf09c735a933b1cffffe31ab36d9b15e030de3192f3412a15c5bea24230da02d3f23b83123c6"},
    {"mixed pregnant academic academic enlarge extend pharmacy inform cargo response sprinkle similar yoga detailed clock biology omit hazard axle video smear scatter daisy aluminum fragment single amuse market safari zero jump strike romantic jerky facility spine camera pickup research vintage award teaspoon campus behavior nervous album cause\n",
     "f106a6115916bbc0b67a00221243a9ef481ead411d1b4b93808b4578c0bd8dfbf96a5356a55f3c2216344fb5e8946937c550"},
    {"group upgrade academic academic academic moment clay jump fiscal body execute scroll empty tricycle object orbit lizard slice bucket fact marvel typical racism tenant traffic scandal silent auction system stilt jewelry blessing dramatic hormone nylon steady belong privacy game calcium upstairs kitchen evening pacific escape warmth gray oasis\n",
     ""},
    {"deadline scandal academic academic admit acrobat vanish activity review snake leaf leader hour enemy either destroy network legs burden forward grief dining client mouse deal injury brother that flea segment devote equip fused decision marathon twice counter ambition freshman criminal marvel manual pregnant promise clock screw genre document losing\n",
     "4e6b04b91eceb0a3910166a596c01a557df7f5b5da84f1613af8de073518f654cb6838930fe1f49289ed8d14a946efbadf0a82a7"},
    {"believe away academic academic academic advocate helpful cradle license arcade learn capital budget estimate frost mental warn duration have market downtown identify grin lily black museum formal unwrap boundary soldier entrance march usual species humidity relate graduate pajamas yield visitor venture disaster birthday diminish glasses tackle lunar force enforce elbow\n",
     ""},
    {"pile clay academic academic acne apart capital pistol parking segment eraser greatest darkness family chemical amount category spine regular afraid mental desert emperor impulse magazine remind ordinary loan plot smug wildlife ladybug endorse priest express device mansion clogs rebound kitchen desert laden theater diagnose helpful prune health punish branch crazy acid\n",
     "17a058e0a81fe029379d2538e5794004d61593825669994e13a7cc1a1e79b99522f10f2a491424f1914a664c2de66a95ed9d69c3c548"},
    {"lobe extend academic academic dictate bundle uncover payroll medical animal tenant party either grownup spray mason mansion phantom likely estimate rebuild grant alarm improve senior roster careful threaten galaxy equip skin moisture fluff theater level strike aluminum sniff prayer bundle friendly judicial luck bumpy cards realize edge pregnant warn peasant elevator minister\n",
     "7ca36aed96fac0dd38e85cd4d0ebd66107a479130c91cef991090118573935dc8fc8de7ad9eee0c7be1ef7c6c9c702147cfb75f135b40cfc"},
    {"desert evil academic academic academic budget elder paces aide fangs modify preach loan impulse morning sugar romp decrease equip garden task tadpole military tadpole antenna regular making marathon failure hush pacific verdict divorce boundary deliver woman bolt filter secret jacket level grant expect hand aviation soul prevent umbrella course black ladybug timber cylinder\n",
     ""},
    {"together recover academic academic adjust ting elegant heat evening forecast segment august genius funding insect huge august wrap syndrome class beard deadline already midst vocal carpet acne nuclear dough national club axis mama argue beam damage rapids drink fused welfare numerous sprinkle empty facility scroll wavy alien soldier exceed dryer friendly tofu script secret\n",
     "404d4c8d02c6d94d915e0535c32ba69b31d20444fb33fefc8063dd17cfde6f9ad678c02df96a1964538a2cde8057e36525a7f05ab0e57f472cf1"},
    {"smirk evil academic academic satoshi findings reunion spend cover should overall plastic require large glen editor pistol mental vintage force segment unkind beam elder genuine belong typical cylinder should focus dress news scared rapids intend warn priest alive unusual beaver ocean furl home fawn evoke patrol holiday company steady level enlarge home stilt threaten syndrome\n",
     "2c1eb38fd23afdcd8d1c70d70f2e6a827011cec6c7d52f56a8ea950c9cd90900200e2e13f5dab2c53c804ca93acaa6f1871bb08fef1ac17baf12f2fe"},
    {"quick easy academic academic academic injury fangs cylinder result inform holiday lunar amount move junction flash observe group bolt nylon safari orbit impulse declare sprinkle physics talent legend friendly demand lift duke tracks pile sympathy erode remember chest mixed bumpy satisfy else disease drug deal mayor improve piece puny sled downtown solution tidy failure declare stadium\n",
     ""},
    {"hobo manual academic academic aquatic pants fangs indicate argue axle nylon thank muscle bedroom iris timber society purple crystal tackle temple jewelry miracle enlarge guilt forbid chest champion reunion random carve cowboy wrist grocery software thank premium holiday ruler diagnose finger speak brave verdict twice nylon sympathy visitor costume tackle twin smear observe velvet piece lips exchange\n",
     "63421d76a9dd334b5efc17d60163a083fba56fe6109a302754dbd481df53462ed44f45b956e4f1e56bafb4fbd476aa534d6a6f1b47153710ec8e0476a87d"},
    {"smart away academic academic academic award dwarf security lungs pharmacy chemical software provide rocky become aircraft aviation group cleanup finance raisin move alpha soul soldier greatest funding premium lyrics island survive prune weapon clock acne raisin genius should liquid fortune modern vexed explain general vanish silver belong pipeline cylinder brave ordinary clock texture negative mixture cause champion purple\n",
     ""},
    {"mother evil academic academic acne cleanup peanut dive theater gravity deploy type shelter blue require diet alien force salon ceramic debut lying grumpy lair guitar yield spark math public shaft amuse genre friar slap crisis painting cleanup award smith arcade toxic carbon jacket slavery genius rainbow grumpy estate pile clock grownup network adorn manager drift benefit amuse minister execute\n",
     "b9bb8d04687a655653cb188512ef3b4746b7b79c98a713e481aeec4793b57a2e77495288f10a878fd06625f0c5c658ac1211c5e9393edc813533adeafadafaa5"},
    {"density favorite academic academic academic aviation literary threaten beard darkness chemical nylon wealthy invasion patent exchange mountain move snapshot true violence cubic briefing devote ambition mustang should facility guitar garbage beard subject always scatter isolate midst husky snake trash software friar quick silver pacific pants rumor empty failure execute living tidy blimp stilt flame pupal sprinkle making shrimp acquire mansion transfer\n",
     ""},
    {"example disaster academic academic academic have failure patent bishop entrance oven devote grant adjust endorse season human calcium hormone boundary ugly testify tackle says explain usual station warn breathe soldier friar adjust leaf rival strike secret silent graduate diminish energy racism inside standard animal junction debut dress enjoy gray lend short lying display modern divorce exceed vintage advocate decrease valid firefly funding party credit\n",
     ""},
    {"have disaster academic academic academic auction kind cultural smith bucket deny disease tracks costume evoke ticket segment usher remove lunch bolt tactics sled mobile purchase premium dress spew beam result goat weapon spine superior species client quiet regret blimp disaster level often fridge crucial dominant welfare enjoy fatal device omit crucial extra premium ordinary timber execute crunch jury holy aspect benefit trend blanket born warmth jump\n",
     ""},
    {"theory wisdom academic academic academic analysis install license example breathe coding family twice grief hairy magazine jerky true research explain nail slush scatter glimpse venture practice similar anatomy expect strike slush wrist capacity purchase snake duration orbit building alive answer revenue unhappy mineral sled pipeline twin cleanup vintage pumps screw judicial focus sniff security curly theater bolt punish manual carve ruler emission ugly crush hanger industry picture industry fiber\n",
     ""},
    {"thunder easy academic academic academic husband vampire editor sack quiet toxic secret exercise holy mandate alive symbolic axis furl mixture axis pile armed escape platform step either roster robin trouble capital trouble voting quarter tofu oven response safari apart location cluster away ladle hawk equip usual inherit fatal phantom strategy mother texture brother mouse rebound obesity prevent tadpole mortgage voice forget maiden usual trash venture erode mild froth artist aviation mental frost\n",
     ""},
    {"tracks academic academic academic academic academic explain prevent soldier advocate ticket petition bike guitar fatigue solution brother dive petition sympathy grownup goat judicial temple venture leaves practice review luxury chest bulb wealthy river artist carpet raisin beyond single admit merchant forget forget painting museum large security grasp crucial mother amazing born medal pupal antenna antenna cage random tension idea failure step manager spirit guest royal dragon upgrade browser zero antenna judicial pants pink cover\n",
     ""},
    {"hawk indicate academic academic academic desktop moisture inherit coding review best cards clogs elite sugar true material valuable paid eraser step keyboard music steady language shaped museum buyer craft merchant puny furl orange flame rainbow costume angry lilac amazing much crucial agree clothes tadpole package research anxiety funding fishing emperor ajar standard plot speak season guest junior grasp famous true shaft marathon aircraft organize pregnant hour staff pile apart energy afraid hormone strategy easy lilac relate ceiling\n",
     ""},
    {"research extend academic academic academic crystal prisoner papa pink element image regular shame element piece hawk frozen mixed teacher careful hybrid blimp verdict profile replace warmth miracle pile grasp genuine result tactics numb image steady society alarm estimate anatomy duckling repeat dive making playoff romantic receiver crisis coastal game amazing snapshot likely enforce device numerous premium swimming steady marvel airline railroad wealthy recall primary grant penalty critical puny crisis knife stick fatigue treat aviation disease rich piece rumor briefing island\n",
     ""},
    {"cowboy walnut academic academic academic ajar dilemma fancy guest document income keyboard regret employer race furl mailman faint kidney friendly findings dress taste painting round benefit true making magazine python crowd orbit general view render machine render agree woman testify teaspoon muscle recall isolate skunk pupal shaft lawsuit spirit company undergo gasoline stick describe husky verdict garbage divorce election founder suitable security grocery axle blessing party class uncover year peaceful purchase mason exhaust genre justice airline script plunge envy promise cover check\n",
     ""},
    {"punish crunch academic academic academic desire shaft strike impact nuclear cradle fumes paid eraser valuable calcium webcam loud clinic alarm daughter destroy diagnose unwrap warn biology stilt cricket obtain video window volume aviation curly away cargo withdraw include square forbid upstairs alcohol lily spider reaction hospital garden beaver junction style elegant screw cricket biology nuclear freshman clogs therapy findings glasses lyrics video main holy prepare install detailed warn change blind crazy arena crucial party sprinkle payment speak gray angry spend vanish gravity bucket cargo hospital\n",
     ""},
    {"laundry merchant academic academic academic justice empty liquid focus tactics national river arena jacket program obtain pitch valuable academic alto enemy building swimming large lamp salon equip husband gross trial smith glen fused recover animal platform elevator rich home vocal military advance western clock scatter depict company superior luck auction juice prune listen humidity grief body profile debut disease research galaxy equation trust arcade flash perfect pants window afraid ancient ivory dining cause taught military exchange scene prepare grumpy acne patent vegan primary problem crazy ending finance prize\n",
     ""},
    {"merit upgrade academic academic academic adequate graduate sprinkle view trend result founder bumpy legal reject branch racism pancake pregnant both election valid window force divorce taught deploy furl forget axis cradle lying crystal laden breathe wireless plains cricket veteran destroy charity prisoner agency prize premium juice soldier literary pulse thunder mild gray burning crisis bulge flame deliver smell game trend fluff taste grumpy texture insect timber step strategy home inside owner payroll shrimp pupal remind phantom ting harvest genius parking avoid actress apart western burning emperor glance hanger erode satoshi\n",
     ""},
    {"born apart academic academic academic downtown peasant superior prayer herd gather dragon slim rival ladle rhyme lying husky smell punish premium spider fact makeup humidity helpful view debut glad multiple hazard indicate step amuse soul grill standard party chubby umbrella valuable weapon cowboy dance rhythm method dragon parcel roster peaceful income easel retailer frost society pharmacy seafood prisoner losing river lawsuit lobe lamp beyond twin typical document genius pancake flexible skunk insect aviation flavor machine antenna bulge devote webcam rumor kitchen mental timely nervous python slavery emphasis gather bulb thorn drove fortune pickup\n",
     ""},
    {"alarm guest academic academic academic process priest dress season velvet duckling squeeze stadium include reward carve scatter pharmacy race inform prisoner muscle trust gravity cards nylon enforce unhappy duckling pumps plains mental expand flip verdict unwrap crucial painting orange ceramic aunt switch impulse veteran segment vegan fact plan kind blanket august valid single kind miracle plan punish obtain cards filter viral galaxy hawk slap nylon order oasis husband float forward stilt divorce escape dramatic increase nail wireless cover mustang fridge adjust bracelet easy work grocery arena market club blue clothes thumb plunge valid station username fantasy\n",
     ""},
    {"editor lunch academic academic academic arena fawn twin sheriff plan fiction large coding injury lamp emphasis browser network hearing verdict pumps seafood invasion unwrap valuable veteran course lamp resident trust dwarf percent adorn energy mountain rhythm chest charity together listen peasant axis music solution downtown testify emerald execute dramatic daisy dramatic result move costume duckling pulse platform helpful lunch always verify failure divorce jury smoking album music clock valuable snapshot vitamins aide kitchen width burning depict window western vexed evidence average adequate activity premium justice grocery capital pile smoking hobo slice reward raisin sugar ticket execute endless trend\n",
     ""},
    {"physics evil academic academic academic blanket orange toxic multiple numerous jury romp afraid timber reward broken hospital round grill adorn story burden blanket flip game orbit bulb impulse withdraw deliver domain endless military fiscal sack craft detailed hour result true industry visual solution acrobat already hesitate enforce tadpole tofu duckling excuse angry pile enlarge vintage uncover credit filter survive ordinary frost declare justice oral huge behavior both elephant rival evening organize aide square pacific loan wealthy duckling leaves pistol meaning income percent improve visitor grant fawn health pharmacy vampire curly petition ugly purchase burning smirk trial admit magazine carve blind plastic\n",
     ""},
    {"speak necklace academic academic academic mustang orange lilac energy shelter prune bishop medical birthday phantom elder fortune moisture express domestic grasp acid salon reward fatigue smear database deliver survive clinic envelope acquire graduate video platform spider traveler float human depict extend yoga cards depict cargo blimp yoga visitor center cylinder declare spider plastic spew kernel soldier formal install fumes pajamas educate usher deadline chemical exclude jewelry famous breathe envelope easy smear fiber grownup jump salary eyebrow painting orange slap branch ounce agency mountain always lizard vanish bolt science negative news domestic mild taste spill teacher desert muscle detect guest result element marathon stadium muscle\n",
     ""},
    {"memory merchant academic academic academic aircraft swimming speak estimate scene canyon plains trust laser gray freshman wits omit maximum image priority away fiber symbolic lyrics remove treat juice gray museum credit crush alto glad stadium frost daughter prize pupal parcel apart arena undergo forward picture thank coal amount prepare escape vocal indicate champion desktop switch isolate rhyme disease brave apart replace scroll cowboy vitamins recover axle include papa fangs vegan guitar silent drove away elbow legend dwarf upgrade penalty numerous jerky award human idle random display pile remove plastic raisin garlic flavor indicate universe spray rumor brave depict genre research very location easel center fridge element\n",
     ""},
    {"flexible surprise academic academic academic demand squeeze equation amount woman fawn victim submit forward beard clothes iris taxi plot space together treat critical shrimp clock raspy wrote lobe very intend gross purchase industry legs brave black romp evoke have suitable undergo shaft escape fangs texture agree away family admit stilt ladybug bundle twin twice quarter hamster coding network carbon improve vexed reject spelling rapids column capacity clogs national island column twin holiday adorn ancestor voter galaxy march distance mustang method trash speak twice verdict amuse valuable provide guitar gums frequent smear rhyme permit cause anxiety lilac jury learn paces purple warmth tolerate trend oasis multiple username mental spit funding\n",
     ""},
    {"plastic away academic academic academic source island literary charity counter strategy analysis jump fact very enlarge lobe geology believe fatigue bumpy pupal making view object roster ajar orange forget remind greatest friar magazine ladybug umbrella meaning rhyme yield agree jerky pregnant justice belong findings orange senior valuable analysis promise permit harvest memory shame friendly sidewalk hospital genre owner pencil aspect miracle drift adequate diploma advance leaf total lilac subject daisy revenue retailer grief avoid kidney package destroy twin rich fake desktop sack lobe mother envy market scroll exotic race loan slap boundary edge capacity spit document primary ounce cinema freshman recall ranked helpful infant rainbow ruin overall valuable screw champion laden closet\n",
     ""},
    {"unwrap husband academic academic devote average lips fortune lift clock corner wits junior shaft general hour hesitate vocal that nervous\n",
     "a05471a4f70dac4c1a88902dce5bd53a"},
    {"unwrap husband academic academic devote average lips fortune lift clock corner wits junior shaft general hour hesitate firm minister tracks\n",
     ""},
    {"unwrap husband academic academic devote average lips fortune lift clock corner wits junior shaft general hour hesitate tracks screw modern\n",
     ""},
    {"impulse else academic academic campus diet style pecan symbolic either frequent imply ladle dragon leaves hanger velvet testify infant easel\n",
     "12721c796cb8006e71bef989f79bdebe"},
    {"impulse else academic academic campus diet style pecan symbolic either frequent imply ladle dragon leaves hanger velvet elbow ajar eclipse\n",
     ""},
    {"impulse else academic academic campus diet style pecan symbolic either frequent imply ladle dragon leaves hanger velvet fangs ceiling evaluate\n",
     ""},
    {"believe necklace academic academic apart afraid budget priest fridge pistol valid coastal equation paid prepare pencil welfare dress river answer husky fawn upgrade category valid tendency maiden radar shaped devote swimming stay talent\n",
     "fd5eb0fcec6451a914c38b495accc9864246277bad3a43ae368b51d8036e2f55"},
    {"believe necklace academic academic apart afraid budget priest fridge pistol valid coastal equation paid prepare pencil welfare dress river answer husky fawn upgrade category valid tendency maiden radar shaped devote sniff punish drift\n",
     ""},
    {"believe necklace academic academic apart afraid budget priest fridge pistol valid coastal equation paid prepare pencil welfare dress river answer husky fawn upgrade category valid tendency maiden radar shaped devote script ruin yelp\n",
     ""},
    {"usual apart academic academic ancient warn peasant promise romp invasion ruler rival building thumb animal born unfold ranked observe elbow demand taste herd view glad swing duration learn exceed forecast together wits glad\n",
     "5157cff8f1a3506017cdd17f17e9939ad1f5ff078d3c8782325b62697e030d13"},
    {"usual apart academic academic ancient warn peasant promise romp invasion ruler rival building thumb animal born unfold ranked observe elbow demand taste herd view glad swing duration learn exceed forecast true mountain lecture\n",
     ""},
    {"usual apart academic academic ancient warn peasant promise romp invasion ruler rival building thumb animal born unfold ranked observe elbow demand taste herd view glad swing duration learn exceed forecast valuable manual paper\n",
     ""},
    {"human category academic academic budget fact dramatic holy gray group slow yield rich armed editor nervous isolate slim victim oven\n",
     ""},
    {"human category academic academic budget fact dramatic holy gray group slow yield rich armed editor nervous isolate slim victim owner\n",
     ""},
    {"human category academic academic budget fact dramatic holy gray group slow yield rich armed editor nervous isolate slim victim overall\n",
     ""},
    {"human category academic academic budget fact dramatic holy gray group slow yield rich armed editor nervous isolate slim video ounce\n",
     ""},
    {"human category academic academic budget fact dramatic holy gray group slow yield rich armed editor nervous isolate slow victim ounce\n",
     ""},
    {"human category academic academic budget fact dramatic holy gray group slow yield rich armed editor nervous isolate execute victim ounce\n",
     ""},
    {"edge extend academic academic dictate clothes romp index union lilac destroy privacy center security criminal cinema install curious coal resident\n",
     ""},
    {"editor extra academic academic dictate clothes romp index union lilac destroy privacy center security criminal cinema install curious coal resident\n",
     ""},
    {"editor extend acid academic dictate clothes romp index union lilac destroy privacy center security criminal cinema install curious coal resident\n",
     ""},
    {"editor extend academic acid dictate clothes romp index union lilac destroy privacy center security criminal cinema install curious coal resident\n",
     ""},
    {"editor extend academic academic diet clothes romp index union lilac destroy privacy center security criminal cinema install curious coal resident\n",
     ""},
    {"editor extend academic academic dictate club romp index union lilac destroy privacy center security criminal cinema install curious coal resident\n",
     ""},
    {"editor extend academic academic dictate clothes roster index union lilac destroy privacy center security criminal cinema install curious coal resident\n",
     ""},
    {"editor extend academic academic dictate clothes romp increase union lilac destroy privacy center security criminal cinema install curious coal resident\n",
     ""},
    {"editor extend academic academic dictate clothes romp index universe lilac destroy privacy center security criminal cinema install curious coal resident\n",
     ""},
    {"editor extend academic academic dictate clothes romp index union lily destroy privacy center security criminal cinema install curious coal resident\n",
     ""},
    {"editor extend academic academic dictate clothes romp index union lilac detailed privacy center security criminal cinema install curious coal resident\n",
     ""},
    {"editor extend academic academic dictate clothes romp index union lilac destroy prisoner center security criminal cinema install curious coal resident\n",
     ""},
    {"editor extend academic academic dictate clothes romp index union lilac destroy privacy ceiling security criminal cinema install curious coal resident\n",
     ""},
    {"editor extend academic academic dictate clothes romp index union lilac destroy privacy center segment criminal cinema install curious coal resident\n",
     ""},
    {"editor extend academic academic dictate clothes romp index union lilac destroy privacy center security cricket cinema install curious coal resident\n",
     ""},
    {"editor extend academic academic dictate clothes romp index union lilac destroy privacy center security criminal chubby install curious coal resident\n",
     ""},
    {"editor extend academic academic dictate clothes romp index union lilac destroy privacy center security criminal cinema inside curious coal resident\n",
     ""},
    {"editor extend academic academic dictate clothes romp index union lilac destroy privacy center security criminal cinema install cultural coal resident\n",
     ""},
    {"editor extend academic academic dictate clothes romp index union lilac destroy privacy center security criminal cinema install curious cluster resident\n",
     ""},
    {"editor extend academic academic dictate clothes romp index union lilac destroy privacy center security criminal cinema install curious coal research\n",
     ""},
    {"boring flea academic academic anatomy envelope freshman thunder boundary junior story clay expand metric ranked august swimming march budget remove formal twin pumps glasses idle\n",
     ""},
    {"hunting smoking academic academic acquire dwarf theory wealthy twice ruler angry pencil exceed desert piece swimming rescue short inmate wavy machine lilac disease agency purple capture domain dish phantom edge depict listen class texture ordinary family advance pleasure guest holy tofu oral unusual simple quarter buyer corner trust cage cargo forget clogs stilt curly learn fawn making profile ceiling\n",
     ""},
    {"slush painting academic academic advance charity antenna genius elite primary dough both segment center demand advocate busy priest adjust trial industry gesture science sled trash desire lilac vexed tackle liquid voice dramatic herd deadline umbrella wavy trash sniff scholar general dominant orbit strike judicial move ladybug wireless lips short crunch wrote parking else crunch sugar webcam punish much machine engage join airline uncover upgrade husky facility element shame forget perfect mansion speak garbage perfect race type daisy plains suitable holiday robin erode much aspect puny plot example join thunder saver kernel sniff diploma epidemic genius traffic mild belong sprinkle drug similar teacher fake email helpful deny orange elder friendly intimate\n",
     ""},
    {"editor extend academic academic dictate clothes romp index union destroy lilac privacy center security criminal cinema install curious coal resident\n",
     ""},
    {"subject wine wolf sidewalk average black prisoner harvest founder downtown prisoner carbon adult birthday tidy display academic academic walnut modern\n",
     ""},
    {"junction extend academic academic corner practice snapshot submit preach genius prepare timely stick remind adapt iris mixed meaning slush album\n",
     "3051f0ef460d9db8f683d2aad4374572"},
    {"ajar category academic easy breathe license fluff stilt capture greatest deal daisy ladybug geology remind disaster museum ruler radar level\n",
     "e0cb163f87ae4d9dd7bd9242e8666ef6"},
    {"device romp acquire romp coastal idle result much gather bike fluff retreat flexible silent dress briefing step cradle finger acquire\n",
     "298651813f44a21d20dde614dfc0452b"},
    {"disaster recover acrobat easy belong depend company pants shadow plot silent ancient moisture sugar teaspoon facility activity garbage ruin warmth\n",
     ""},
    {"terminal pink acrobat leader duke cleanup bulb thunder episode season umbrella hush curly lecture yield species manager domain desktop daughter\n",
     ""},
    {"husky smoking already academic burning prune warmth dining endorse drove mama spray duke welfare freshman cause perfect deal drove ticket\n",
     ""},
    {"evaluate flea amazing academic always adapt puny laser improve marvel best sack anatomy extend science threaten auction detailed away enlarge\n",
     ""},
    {"smoking prospect aunt romp duckling aide unhappy resident salary alarm prisoner ticket scene academic dryer lips fused scatter syndrome activity\n",
     ""},
    {"pencil walnut award romp aunt royal beaver survive legs broken laser paper spelling indicate ladybug fused manager check timely tricycle\n",
     ""},
    {"railroad painting acrobat academic advance shame believe failure payment pumps strategy grownup branch season document mansion again fiction depend bucket\n",
     ""},
    {"cleanup smoking adequate easy calcium family guard image loud flavor cinema necklace entrance evening headset usual payroll excuse finance smith\n",
     ""},
    {"elder walnut always romp adjust peasant fumes forward born estimate group branch dining midst toxic rebound ultimate thorn plot course\n",
     ""},
    {"recall disaster average academic dance mother verify drug satisfy victim humidity devote carve brave chemical brother quiet depict prisoner keyboard\n",
     ""},
    {"oasis easy award leader acrobat package receiver fragment evoke equip idle advocate broken guilt species talent tackle terminal arena brave\n",
     ""},
    {"fangs extend academic academic calcium surprise lyrics grief recover enjoy window year single usual unfair thorn earth depart eraser endorse\n",
     "1457db2aaa7c8be85bc29877400d7f35"},
    {"numerous leader academic dramatic chest pitch traffic lecture gravity husband length various plains exotic standard ruler library machine daisy romp\n",
     "960727eab6823c09897191bbe57879e3"},
    {"royal painting academic agency blessing wavy ruin length change literary shrimp chest eyebrow withdraw industry dynamic judicial duckling lyrics element\n",
     ""},
    {"research necklace academic dream bundle infant headset branch easy leader browser pajamas shrimp inform weapon mason jacket midst evidence justice\n",
     ""},
    {"prospect branch academic capacity decorate humidity grownup mayor vanish best category veteran merchant scared profile guitar modify artist fragment fluff\n",
     ""},
    {"editor easy academic check cluster analysis superior junction inmate theater guilt adorn depart amount nervous grasp charity findings kidney numb\n",
     ""},
    {"clay enlarge academic downtown browser imply unwrap acne nuclear patrol axle disease health problem laundry ecology withdraw metric income findings\n",
     ""},
    {"bulb recover academic afraid deny math fatal friendly herd aluminum suitable elevator class bishop twin glasses buyer senior focus watch\n",
     ""},
    {"indicate disaster academic easel describe destroy racism early beam pulse plunge random gray ecology prevent strategy birthday cricket staff package\n",
     ""},
    {"academic academic academic academic decent drift cylinder acid judicial lunar hybrid glance memory living downtown evidence ajar drove usual tension\n",
     "1819b2755530398168bd2e4b6c4bb1bf"},
    {"academic aluminum academic academic building single avoid coastal mama credit emphasis crazy theory fiber thank hazard genius deny script stadium\n",
     "8836b6d21cae2125c80acc9dc5078f60"},
    {"adapt walnut academic academic boring laser echo actress erode plastic both excuse silver peasant webcam midst trash lizard document prayer\n",
     "b3ae6d7936466124311801104be73150"},
    {"adequate academic academic academic dilemma emperor render upstairs twice born genre holiday uncover elder view slavery clogs general society coal\n",
     "2ea05446a4e1a5e71b69cd53c6f8ee7b"},
    {"lawsuit walnut academic academic cricket exchange document marathon parcel body lunch voter boring thorn eclipse multiple emission woman plains pancake\n",
     "6c0a4d81c724f752ed0c13afdd121f53"},
    {"leader academic academic academic analysis trust execute dynamic welfare shaped chew crystal excuse tofu wolf erode decent victim dough python\n",
     "654aadfeec983c2f2693b48572aac23a"},
    {"zero walnut academic academic database western retreat dance execute magazine loyalty rich metric review idle actress holiday aspect grill election\n",
     "a6a576f101a9e2acb8b8b6b0444935f9"},
    {"chemical prospect academic academic careful ecology payroll pancake warmth crisis treat visitor oasis tactics decision flash jewelry obtain expand retailer\n",
     "9979a330db3e84b5166f184ca107913b"},
    {"therapy describe academic academic best machine quarter flea desktop grumpy physics unwrap regret domain helpful emphasis profile carve flexible animal\n",
     "061bee7b2006693f6129d994d78eb36c"},
    {"knife husband academic academic change express threaten adjust equation upstairs fact system peaceful best wine tidy frequent retreat lilac away\n",
     "0f4edc1e3d0017799150ff9fc568e724"},
    {"charity leaf academic academic capture alarm lips scared humidity welfare flavor network raisin snake rumor empty frequent squeeze wildlife main\n",
     "82230d9f989c48f78bb7dfd31e3e0880"},
    {"elder husband academic academic clogs explain loan oral scramble flavor grasp rainbow round station standard biology veteran civil deny extra\n",
     "164dba14c7e2b30f205e7a8684954305"},
    {"mild enlarge academic again deliver genre domestic hearing advocate grownup froth rhythm cage clothes makeup drove moisture program voting husky\n",
     "e9035e29d3a823d62f7e4fb45f831764"},
    {"emerald husband academic busy daisy cover born endless penalty ladle evil simple stilt thorn fawn avoid dive biology general garlic\n",
     "de6ba1a51056283f2572d99b853ab485"},
    {"reject leader academic category display yield username crowd grant element august submit jump diet fatigue emphasis trouble axle level sister\n",
     "e10bff4d10850dc06a0134181c9c7fb0"},
    {"prepare isolate academic dramatic device center diet blessing process company database teaspoon black location diet spray yield finger spirit false\n",
     "1e28031b3297acc747c6e54f776d7149"},
    {"capital aluminum acquire romp arena hospital darkness clinic preach stadium angel bedroom race stick airline usher credit plunge main subject\n",
     "81e080c3d583f4dd583e865dea9d8bce"},
    {"chew merchant away easy academic sack excuse slush lungs emperor husband kernel genius cradle hobo similar living pajamas security acrobat\n",
     "2bfc5bdee18c4624dfe78dc24d7da41d"},
    {"smith corner hush romp cause tofu chubby dish hospital obtain speak float climate equip fitness insect warn work decrease purple\n",
     "e5d98bb0305985ec4ef97eccfe6eb021"},
    {"entrance category leaves romp brother diagnose voting pumps universe spark hormone artist example nervous blimp herald holiday judicial froth visual\n",
     "860d1d467b4a1cff2fe58c6afb3c7386"},
    {"plains aluminum usher romp dictate timber image smoking eraser herd both biology junk morning admit usher answer smell script cluster\n",
     "f3d09cb51f8b54d96c6de5463b7888c4"},
    {"mayor taught academic academics crunch ecology vexed marathon display beard carbon raspy tadpole activity building yelp mandate space guilt slice\n",
     ""},
    {"mayor taught academic academic crunch ecolog vexed marathon display beard carbon raspy tadpole activity building yelp mandate space guilt slice\n",
     ""},
    {"mayor taught academic academic crunch ecology vexed marathon disp beard carbon raspy tadpole activity building yelp mandate space guilt slice\n",
     ""},
    {"mayor taught academic academic crunch ecology vexed marathon display beard carbon raspy tadpole activity building yelp mandate space guilt sliczz\n",
     ""},
    {"mayor, taught academic academic crunch ecology vexed marathon display beard carbon raspy tadpole activity building yelp mandate space guilt slice\n",
     ""},
    {"mayor taught academic academic crunch ecology vexed marathon display beard carbon raspy 892 activity building yelp mandate space guilt slice\n",
     ""},
    {"mayor taught academic academic crunch ecology vexed marathon display beard carbon raspy tadpole activity building yalp mandate space guilt slice\n",
     ""},
    {"enforce category academic echo dramatic golden observe shelter location acne fangs herd faint humidity manual evoke faint equip quick losing\n"
     "enforce category academic email animal treat sunlight negative merit domestic traffic spew marathon mama entrance drug space diet midst aide\n"
     "enforce corner academic entrance black greatest burden harvest practice industry ceramic response crazy retreat guitar program fitness capacity triumph hand\n",
     ""},
    {"enforce corner academic echo dramatic golden observe shelter location acne fangs herd faint humidity manual evoke faint crunch critical patent\n"
     "enforce category academic email animal treat sunlight negative merit domestic traffic spew marathon mama entrance drug space diet midst aide\n"
     "enforce category academic entrance black greatest burden harvest practice industry ceramic response crazy retreat guitar program fitness isolate imply exceed\n",
     ""},
    {"enforce category academic echo dramatic golden observe shelter location acne fangs herd faint humidity manual evoke faint equip quick losing\n"
     "enforce corner academic email animal treat sunlight negative merit domestic traffic spew marathon mama entrance drug space fangs anatomy cause\n",
     ""},
    {"enforce category academic echo dramatic golden observe shelter location acne fangs herd faint humidity manual evoke faint equip quick losing\n"
     "enforce category academic email animal treat sunlight negative merit domestic traffic spew marathon mama entrance drug space diet midst aide\n"
     "enforce corner away echo bumpy echo venture keyboard volume ancient firm elder wrote adjust goat empty prisoner fiber analysis heat\n",
     ""},
    {"enforce category academic echo dramatic golden observe shelter location acne fangs herd faint humidity manual evoke faint equip quick losing\n"
     "enforce category academic email animal treat sunlight negative merit domestic traffic spew marathon mama entrance drug space diet midst aide\n"
     "enforce clay academic entrance black greatest burden harvest practice industry ceramic response crazy retreat guitar program fitness headset slow category\n",
     ""},
    {"enforce clay academic echo dramatic golden observe shelter location acne fangs herd faint humidity manual evoke faint forget avoid twin\n"
     "enforce category academic email animal treat sunlight negative merit domestic traffic spew marathon mama entrance drug space diet midst aide\n"
     "enforce category academic entrance black greatest burden harvest practice industry ceramic response crazy retreat guitar program fitness isolate imply exceed\n",
     ""},
    {"enforce category academic echo dramatic golden observe shelter location acne fangs herd faint humidity manual evoke faint equip quick losing\n"
     "enforce clay academic email animal treat sunlight negative merit domestic traffic spew marathon mama entrance drug space clogs cultural hanger\n",
     ""},
    {"enforce category academic echo dramatic golden observe shelter location acne fangs herd faint humidity manual evoke faint equip quick losing\n"
     "enforce category academic email animal treat sunlight negative merit domestic traffic spew marathon mama entrance drug space diet midst aide\n"
     "enforce clay away echo bumpy echo venture keyboard volume ancient firm elder wrote adjust goat empty prisoner check curious clogs\n",
     ""},
    {"enforce category academic echo dramatic golden observe shelter location acne fangs herd faint humidity manual evoke faint equip quick losing\n"
     "enforce category academic email animal treat sunlight negative merit domestic traffic spew marathon mama entrance drug space diet midst aide\n"
     "enforce cause academic entrance black greatest burden harvest practice industry ceramic response crazy retreat guitar program fitness afraid process fragment\n",
     ""},
    {"enforce cause academic echo dramatic golden observe shelter location acne fangs herd faint humidity manual evoke faint deliver hour national\n"
     "enforce category academic email animal treat sunlight negative merit domestic traffic spew marathon mama entrance drug space diet midst aide\n"
     "enforce category academic entrance black greatest burden harvest practice industry ceramic response crazy retreat guitar program fitness isolate imply exceed\n",
     ""},
    {"enforce category academic echo dramatic golden observe shelter location acne fangs herd faint humidity manual evoke faint equip quick losing\n"
     "enforce cause academic email animal treat sunlight negative merit domestic traffic spew marathon mama entrance drug space exceed evoke blind\n",
     ""},
    {"enforce category academic echo dramatic golden observe shelter location acne fangs herd faint humidity manual evoke faint equip quick losing\n"
     "enforce category academic email animal treat sunlight negative merit domestic traffic spew marathon mama entrance drug space diet midst aide\n"
     "enforce cause away echo bumpy echo venture keyboard volume ancient firm elder wrote adjust goat empty prisoner escape evil focus\n",
     ""},
    {"enforce category academic echo dramatic golden observe shelter location acne fangs herd faint humidity manual evoke faint equip quick losing\n"
     "enforce category academic email animal treat sunlight negative merit domestic traffic spew marathon mama entrance drug space diet midst aide\n"
     "enforce category acrobat entrance black greatest burden harvest practice industry ceramic response crazy retreat guitar program fitness distance beam airline\n",
     ""},
    {"enforce category acrobat echo dramatic golden observe shelter location acne fangs herd faint humidity manual evoke faint always sniff slush\n"
     "enforce category academic email animal treat sunlight negative merit domestic traffic spew marathon mama entrance drug space diet midst aide\n"
     "enforce category academic entrance black greatest burden harvest practice industry ceramic response crazy retreat guitar program fitness isolate imply exceed\n",
     ""},
    {"enforce category academic echo dramatic golden observe shelter location acne fangs herd faint humidity manual evoke faint equip quick losing\n"
     "enforce category acrobat email animal treat sunlight negative merit domestic traffic spew marathon mama entrance drug space involve verify exact\n",
     ""},
    {"enforce category academic echo dramatic golden observe shelter location acne fangs herd faint humidity manual evoke faint equip quick losing\n"
     "enforce category academic email animal treat sunlight negative merit domestic traffic spew marathon mama entrance drug space diet midst aide\n"
     "enforce category beard echo bumpy echo venture keyboard volume ancient firm elder wrote adjust goat empty prisoner hybrid very acquire\n",
     ""},
    {"enforce category academic echo dramatic golden observe shelter location acne fangs herd faint humidity manual evoke faint equip quick losing\n"
     "enforce category academic email animal treat sunlight negative merit domestic traffic spew marathon mama entrance drug space diet midst aide\n"
     "enforce category academic lungs black greatest burden harvest practice industry ceramic response crazy retreat guitar program fitness pants peasant license\n",
     ""},
    {"enforce category academic leaf dramatic golden observe shelter location acne fangs herd faint humidity manual evoke faint midst geology envelope\n"
     "enforce category academic email animal treat sunlight negative merit domestic traffic spew marathon mama entrance drug space diet midst aide\n"
     "enforce category academic entrance black greatest burden harvest practice industry ceramic response crazy retreat guitar program fitness isolate imply exceed\n",
     ""},
    {"enforce category academic echo dramatic golden observe shelter location acne fangs herd faint humidity manual evoke faint equip quick losing\n"
     "enforce category academic lily animal treat sunlight negative merit domestic traffic spew marathon mama entrance drug space unfold eclipse shrimp\n",
     ""},
    {"enforce category academic echo dramatic golden observe shelter location acne fangs herd faint humidity manual evoke faint equip quick losing\n"
     "enforce category academic email animal treat sunlight negative merit domestic traffic spew marathon mama entrance drug space diet midst aide\n"
     "enforce category away leaf bumpy echo venture keyboard volume ancient firm elder wrote adjust goat empty prisoner trend ecology losing\n",
     ""},
    {"enforce category academic echo dramatic golden observe shelter location acne fangs herd faint humidity manual evoke faint equip quick losing\n"
     "enforce category academic email animal treat sunlight negative merit domestic traffic spew marathon mama entrance drug space diet midst aide\n"
     "enforce category academic entrance activity diagnose genre tofu makeup secret behavior evidence admit mansion dictate criminal ticket romp academic isolate parking goat\n",
     ""},
    {"enforce category academic echo afraid album analysis skin guilt painting clinic seafood destroy gross trash aide blanket garden academic cowboy deadline eraser\n"
     "enforce category academic email animal treat sunlight negative merit domestic traffic spew marathon mama entrance drug space diet midst aide\n"
     "enforce category academic entrance black greatest burden harvest practice industry ceramic response crazy retreat guitar program fitness isolate imply exceed\n",
     ""},
    {"enforce category academic echo dramatic golden observe shelter location acne fangs herd faint humidity manual evoke faint equip quick losing\n"
     "enforce category academic email acne slush frost strategy broken beyond rich armed briefing breathe scatter bike hesitate prospect academic avoid goat vitamins\n",
     ""},
    {"enforce category academic echo dramatic golden observe shelter location acne fangs herd faint humidity manual evoke faint equip quick losing\n"
     "enforce category academic email animal treat sunlight negative merit domestic traffic spew marathon mama entrance drug space diet midst aide\n"
     "enforce category away echo actress scandal careful segment aviation snake mouse moment paid painting mule vexed junior leader academic edge oven single\n",
     ""},
    {"enforce category academic echo dramatic golden observe shelter location acne fangs herd faint humidity manual evoke faint equip quick losing\n"
     "enforce category academic email animal treat sunlight negative merit domestic traffic spew marathon mama entrance drug space diet midst aide\n"
     "enforce category academic envelope black greatest burden harvest practice industry ceramic response crazy retreat guitar program fitness salon literary worthy\n",
     ""},
    {"enforce category academic eclipse dramatic golden observe shelter location acne fangs herd faint humidity manual evoke faint verdict emerald diagnose\n"
     "enforce category academic email animal treat sunlight negative merit domestic traffic spew marathon mama entrance drug space diet midst aide\n"
     "enforce category academic entrance black greatest burden harvest practice industry ceramic response crazy retreat guitar program fitness isolate imply exceed\n",
     ""},
    {"enforce category academic echo dramatic golden observe shelter location acne fangs herd faint humidity manual evoke faint equip quick losing\n"
     "enforce category academic emerald animal treat sunlight negative merit domestic traffic spew marathon mama entrance drug space marathon grill racism\n",
     ""},
    {"enforce category academic echo dramatic golden observe shelter location acne fangs herd faint humidity manual evoke faint equip quick losing\n"
     "enforce category academic email animal treat sunlight negative merit domestic traffic spew marathon mama entrance drug space diet midst aide\n"
     "secret category academic entrance black greatest burden harvest practice industry ceramic response crazy retreat guitar program fitness mandate lift academic\n",
     ""},
    {"evil academic acrobat echo branch aluminum disease purple bundle fangs promise modern mandate budget memory receiver losing rapids daughter woman\n"
     "evil academic acrobat entrance deliver elder priority company speak herd friar verdict crush remove purple username maiden always memory chubby\n"
     "evil academic beard eclipse divorce quarter express mother theater pupal pecan tenant fiction amazing enlarge modern party predator trouble tofu\n"
     "evil academic beard emerald argue destroy crystal helpful radar revenue mule thorn enforce society season guard aspect ajar license glen\n"
     "evil academic beard exact agency biology timber duckling glad gray drug mild paper detect romantic invasion divorce excuse prevent envelope\n",
     "ca26ae798cc3dc331258a08aa5f029b1"},
    {"flash easy acrobat academic diagnose saver epidemic library tactics document august aluminum smoking hand research usual ultimate famous snake diagnose\n"
     "flash easy beard academic aide sister percent firm tidy sympathy judicial salary unusual elegant mason armed display swimming column gasoline\n",
     ""},
    {"yield academic award leader early grill station credit adorn omit detailed husband afraid merchant inherit teaspoon hand slim silver pistol\n"
     "yield academic carve leader detect moisture enjoy diagnose salt swimming benefit piece seafood traffic oasis always funding scandal humidity warmth\n"
     "yield academic deadline leader animal increase practice admit eraser pencil budget anxiety eyebrow scholar damage sister racism voice agency lunch\n"
     "yield academic easel leader crucial scene taxi failure believe quiet grownup talent budget vanish universe deliver quantity cultural salt husband\n"
     "yield academic express leader blind story impulse grill scared envelope alpha elbow aunt busy discuss away detailed acrobat engage staff\n"
     "yield academic garbage leader charity fatal pistol fitness actress clinic prayer intimate flame cause fiction staff fawn obtain seafood privacy\n"
     "yield academic hunting leader dish friendly unknown holiday impact income lair calcium distance mineral spelling railroad formal extra galaxy mayor\n"
     "yield academic lawsuit leader admit identify equation similar graduate smear disease huge garlic gray evoke privacy ugly fortune wine tracks\n"
     "yield academic mental leader busy mixed antenna necklace employer elite talent username unhappy cargo transfer much mason laundry demand smoking\n"
     "yield academic paid leader depict width extend mule premium mouse walnut browser become clogs shaped unfair symbolic nail elbow garbage\n"
     "yield academic promise leader coding faint trip wisdom likely holiday craft medical iris course hawk shadow music bulge puny welcome\n"
     "yield academic romantic leader ceramic soldier unfair clothes grill owner violence punish pitch husky safari apart shelter always tadpole expect\n"
     "yield academic smith leader calcium program fatal shaped impact founder fumes standard wine merchant peaceful raspy union fantasy bishop chest\n"
     "yield academic taste leader benefit typical ocean spill ceiling peaceful exercise cultural easel wine blessing unfair loud hairy index obesity\n"
     "yield academic unwrap leader desert salon wrist verdict teaspoon spirit fishing crunch swing petition soldier piece warmth shaped adorn shaft\n"
     "yield academic zero leader brave living thank making object timely huge tackle cricket injury single valuable bundle zero pitch realize\n",
     ""},
    {"math branch academic acid birthday airline enlarge spray pile kitchen pulse shame unwrap nail shame escape news decent dough wits\n"
     "math branch academic acid birthday airline enlarge spray pile kitchen pulse shame unwrap nail shame escape news decent dough wits\n",
     ""},
    {"math branch academic acid birthday airline enlarge spray pile kitchen pulse shame unwrap nail shame escape news decent dough wits\n"
     "math branch academic agency duke sugar image acrobat platform lilac sprinkle percent daisy briefing inside friar focus visual chew station\n"
     "math branch academic acid birthday airline enlarge spray pile friar pulse shame unwrap nail shame escape news heat injury depict\n",
     ""},
    {"math branch academic acid birthday airline enlarge spray pile friar pulse shame unwrap nail shame escape news heat injury depict\n"
     "math branch academic agency duke sugar image acrobat platform lilac sprinkle percent daisy briefing inside friar focus visual chew station\n"
     "math branch academic acid birthday airline enlarge spray pile kitchen pulse shame unwrap nail shame escape news decent dough wits\n",
     ""},
    {"math branch academic acid birthday airline enlarge spray pile kitchen pulse shame unwrap nail shame escape news decent dough wits\n"
     "math branch academic acid birthday airline enlarge spray pile friar pulse shame unwrap nail shame escape news heat injury depict\n"
     "math branch academic agency duke sugar image acrobat platform lilac sprinkle percent daisy briefing inside friar focus visual chew station\n",
     ""},
    {"math branch academic acid birthday airline enlarge spray pile friar pulse shame unwrap nail shame escape news heat injury depict\n"
     "math branch academic acid birthday airline enlarge spray pile kitchen pulse shame unwrap nail shame escape news decent dough wits\n",
     ""},
    {"fatigue walnut academic echo ceramic skin oral golden decrease multiple flash mailman sweater dramatic aide forbid raisin clogs downtown liberty\n"
     "fatigue walnut academic email desire smug oven analysis triumph terminal froth bedroom woman year ancestor market listen theory mental hairy\n"
     "fatigue walnut away echo dance ladle herald aluminum smug relate fragment being briefing cards axis auction watch famous mineral emphasis\n"
     "fatigue walnut away echo dance ladle herald aluminum smug relate fragment being briefing cards axis auction width exhaust tendency science\n",
     ""},
    {"math branch academic acid birthday airline enlarge spray pile kitchen pulse shame unwrap nail shame escape news decent dough wits\n"
     "math branch academic agency birthday airline enlarge spray pile kitchen pulse shame unwrap nail shame escape news permit tendency amount\n",
     ""},
    {"texture academic acrobat leaf dining wisdom visual pencil yield elevator acid junior ordinary smirk center cricket trash beaver recall display\n"
     "texture academic acrobat lily craft general beyond force sister bracelet dream lunar escape insect program estimate orbit leader pacific always\n",
     ""},
    {"texture academic beard learn cricket prospect writing mixture revenue guard graduate punish hormone type teammate swimming magazine exhaust envelope move\n"
     "texture academic beard lips diminish echo industry garbage lungs cargo exact mother profile include flavor treat romantic research drug fact\n"
     "texture academic beard luxury cultural peanut acne retreat sister champion glimpse daughter evoke science agency famous auction exotic mansion unknown\n"
     "texture academic beard march decent fatigue makeup image wealthy forbid evaluate angry mason forecast quarter group disaster resident year crucial\n",
     ""},
    {"texture academic acrobat leaf dining wisdom visual pencil yield elevator acid junior ordinary smirk center cricket trash beaver recall display\n"
     "texture academic beard learn cricket prospect writing mixture revenue guard graduate punish hormone type teammate swimming magazine exhaust envelope move\n",
     ""},
    {"texture academic acrobat leaf dining wisdom visual pencil yield elevator acid junior ordinary smirk center cricket trash beaver recall display\n"
     "texture academic acrobat lily craft general beyond force sister bracelet dream lunar escape insect program estimate orbit leader pacific always\n"
     "texture academic beard learn cricket prospect writing mixture revenue guard graduate punish hormone type teammate swimming magazine exhaust envelope move\n"
     "texture academic beard luxury cultural peanut acne retreat sister champion glimpse daughter evoke science agency famous auction exotic mansion unknown\n",
     ""},
    {"texture academic acrobat lungs animal switch drug enlarge carpet true isolate midst verify pajamas divorce focus employer source bike merchant\n"
     "texture academic beard lips diminish echo industry garbage lungs cargo exact mother profile include flavor treat romantic research drug fact\n"
     "texture academic ceramic leader amount garlic omit making apart amount unkind adjust frozen injury salon dress training pajamas racism remember\n",
     ""},
    {"",
     ""},
    {"taste necklace academic acid acid argue editor timely kernel change toxic music numb human tricycle cinema exercise mason scene recover\n"
     "taste necklace academic agency darkness corner main vegan airport health picture building parcel devote gasoline herd element mild ultimate shadow\n",
     "ae88342a8dd55cfbd1ed4a0eadea4621"},
    {"taste necklace academic agency darkness corner magazine believe airport health picture building parcel devote gasoline herd element memory petition inside\n"
     "taste necklace academic always branch enforce snapshot process rumor random grin olympic human symbolic window capacity mother acquire escape unfair\n",
     ""},
    {"taste necklace academic agency darkness corner maiden patrol airport health picture building parcel devote gasoline herd element salon spew friar\n"
     "taste necklace academic always branch enforce space paces rumor random grin olympic human symbolic window capacity mother venture hairy duration\n",
     ""},
    {"taste necklace academic agency darkness course imply vegan airport health picture building parcel devote gasoline herd element lamp smoking steady\n"
     "taste necklace academic always branch engage coastal large rumor random grin olympic human symbolic window capacity mother raisin biology prize\n",
     ""},
    {"taste necklace academic agency darkness course capture vegan airport health picture building parcel devote gasoline herd element payroll listen fiber\n"
     "taste necklace academic always branch energy crisis large rumor random grin olympic human symbolic window capacity mother soul symbolic member\n",
     ""},
    {"taste necklace academic agency darkness sprinkle main vegan airport health picture building parcel devote gasoline herd element negative living chew\n"
     "taste necklace academic always branch repair spark large rumor random grin olympic human symbolic window capacity mother reaction satisfy blanket\n",
     ""},
    {"taste necklace academic agency darkness slap main vegan airport health picture building parcel devote gasoline herd element loud expand theater\n"
     "taste necklace academic always branch display spark large rumor random grin olympic human symbolic window capacity mother glasses shrimp grocery\n",
     ""},
    {"taste necklace academic agency axle corner main vegan airport health picture building parcel devote gasoline herd element spend cowboy flexible\n"
     "taste necklace academic always coding enforce spark large rumor random grin olympic human symbolic window capacity mother agree adorn category\n",
     ""},
    {"taste necklace academic agency body corner main vegan airport health picture building parcel devote gasoline herd element shame taught prisoner\n"
     "taste necklace academic always already enforce spark large rumor random grin olympic human symbolic window capacity mother mineral season genius\n",
     ""},
    {"taste necklace academic acid acid argue editor timely kernel change toxic music numb human tricycle cinema idle valuable detect finger\n"
     "taste necklace academic always branch enforce spark large rumor random grin olympic human symbolic window capacity preach hush judicial cover\n",
     ""},
    {"taste necklace academic acid acid argue editor taxi dragon change toxic music numb human tricycle cinema exercise award visitor mama\n"
     "taste necklace academic always branch enforce spark jacket educate random grin olympic human symbolic window capacity mother tension froth civil\n",
     ""},
    {"taste necklace academic acid animal afraid welfare devote kernel change toxic music numb human tricycle cinema exercise vegan junction raspy\n"
     "taste necklace academic agency crunch maximum costume source airport health picture building parcel devote gasoline herd element easy smart clock\n",
     ""},
    {"shaped away academic acne dining gasoline tolerate undergo froth luxury breathe multiple taxi diet process premium bundle group deal acid\n"
     "shaped away academic agree document impact fridge holiday metric become treat lizard withdraw party source math apart space holy rescue\n"
     "shaped away academic amazing anxiety spine iris program method tadpole permit emphasis drove glad insect jerky wavy august flea domestic\n",
     ""},
    {"forget away academic afraid calcium distance element criminal roster avoid hazard diet counter ancient true diploma snapshot golden junction that\n"
     "forget away academic alto credit actress talent daisy champion result smell dance impact parcel repair bumpy welfare ancient solution club\n"
     "forget away academic anxiety aide blimp physics rebound kernel change round angel email pencil pancake ajar enemy easel trash slim\n"
     "forget away academic award diet echo erode fused brave pants envelope standard gross tracks legal detect leaf problem cluster payroll\n"
     "forget away academic bike cubic again dough moisture fridge gesture curious sprinkle escape orbit photo extend easel practice modify decorate\n"
     "forget away academic bracelet domestic judicial romantic simple language excuse universe amuse universe slice intend ivory dismiss device lying greatest\n"
     "forget away academic burning blimp humidity grasp military busy install midst costume program angry closet blimp surprise emission level plot\n"
     "forget away academic carve ancient squeeze rainbow welfare party grant express umbrella brother fiscal damage elbow argue broken drift email\n"
     "forget away academic class always ambition adult much elite academic decent column adjust promise explain dramatic husky focus decent cover\n"
     "forget away academic company clinic cylinder manual obtain worthy adult goat verify nervous garlic junk premium much mountain friendly window\n"
     "forget away academic crucial duckling volume omit explain genius aide enjoy photo smug early wavy envy fatal heat herd increase\n"
     "forget away academic deadline burden society source trial custody fake scene multiple prize lawsuit increase holiday rich rocky kernel idle\n"
     "forget away academic deploy desire axle spray rich submit receiver famous hand aspect blind ting often negative jewelry slap teaspoon\n"
     "forget away academic diploma custody peanut priest float timber tricycle coal grownup hand liberty axis clogs headset rich fused cage\n"
     "forget away academic dragon coding provide race lift earth timber starting nuclear trend floral frost level laundry either loan ceramic\n"
     "forget away academic easel credit pumps luxury acid unknown equip negative elite miracle presence verdict findings withdraw trouble universe calcium\n",
     ""},
    {"average walnut acrobat leader duckling station distance repeat elite clinic wireless iris lungs safari gather plan speak general pecan fatal\n"
     "average walnut beard leader dynamic priest skin express evidence wildlife jerky rich juice oral snake pitch retreat stay change leaves\n",
     "049500a223b8213ded99cdf333093ffb"},
    {"average walnut beard leader dynamic priest smell promise evidence wildlife jerky rich juice oral snake pitch retreat seafood gums duration\n"
     "average walnut ceramic leader dramatic civil response leader fatigue length welfare email tricycle lair helpful pleasure escape lamp award grief\n",
     ""},
    {"average walnut beard leader dynamic priest smear carve evidence wildlife jerky rich juice oral snake pitch retreat mansion broken birthday\n"
     "average walnut ceramic leader dramatic civil rhyme prospect fatigue length welfare email tricycle lair helpful pleasure escape mason crush reaction\n",
     ""},
    {"average walnut beard leader dynamic primary desire express evidence wildlife jerky rich juice oral snake pitch retreat diploma campus metric\n"
     "average walnut ceramic leader dramatic cinema evidence extend fatigue length welfare email tricycle lair helpful pleasure escape silent failure cluster\n",
     ""},
    {"average walnut beard leader dynamic primary flip express evidence wildlife jerky rich juice oral snake pitch retreat trip entrance busy\n"
     "average walnut ceramic leader dramatic class enjoy extend fatigue length welfare email tricycle lair helpful pleasure escape pregnant network alpha\n",
     ""},
    {"average walnut beard leader dynamic fantasy skin express evidence wildlife jerky rich juice oral snake pitch retreat sniff envy have\n"
     "average walnut ceramic leader dramatic tackle romantic extend fatigue length welfare email tricycle lair helpful pleasure escape shame lobe orbit\n",
     ""},
    {"average walnut beard leader dynamic entrance skin express evidence wildlife jerky rich juice oral snake pitch retreat slow length practice\n"
     "average walnut ceramic leader dramatic frost romantic extend fatigue length welfare email tricycle lair helpful pleasure escape campus mental union\n",
     ""},
    {"average walnut beard leader acne priest skin express evidence wildlife jerky rich juice oral snake pitch retreat order therapy beam\n"
     "average walnut ceramic leader advance civil romantic extend fatigue length welfare email tricycle lair helpful pleasure escape junior engage pink\n",
     ""},
    {"average walnut beard leader album priest skin express evidence wildlife jerky rich juice oral snake pitch retreat legend curious tofu\n"
     "average walnut ceramic leader civil civil romantic extend fatigue length welfare email tricycle lair helpful pleasure escape unusual length treat\n",
     ""},
    {"average walnut acrobat leader duckling station distance repeat elite clinic wireless iris lungs safari gather plan ugly capacity finance rhythm\n"
     "average walnut ceramic leader dramatic civil romantic extend fatigue length welfare email tricycle lair helpful pleasure insect aspect dress papa\n",
     ""},
    {"average walnut acrobat leader duckling station distance retreat afraid clinic wireless iris lungs safari gather plan speak theater museum gasoline\n"
     "average walnut ceramic leader dramatic civil romantic flavor spelling length welfare email tricycle lair helpful pleasure escape omit breathe preach\n",
     ""},
    {"average walnut acrobat leader dress laser ordinary angel elite clinic wireless iris lungs safari gather plan speak fumes energy elite\n"
     "average walnut beard leader antenna short column romantic evidence wildlife jerky rich juice oral snake pitch retreat organize lunch careful\n",
     ""},
    {"flash necklace adequate leader away viral market twice retreat careful luxury extend scatter endorse snapshot sprinkle gasoline woman island cowboy\n"
     "flash necklace behavior leader civil decrease coding voice junior typical educate modify filter window meaning shame warn remember forbid lips\n"
     "flash necklace check leader airline class fancy careful floral cylinder robin testify skin capital twin permit military premium cultural pile\n",
     ""},
    {"prepare smoking award romp depend fumes mama puny grill senior database inside news guilt leaves freshman tofu usher kind provide\n"
     "prepare smoking carve romp damage modern nervous example trend alive sidewalk parking hush payroll silver system sister oasis forward alpha\n"
     "prepare smoking deadline romp blimp deploy darkness fluff fangs ending penalty furl fawn liquid family buyer metric vexed platform biology\n"
     "prepare smoking easel romp actress custody knit engage solution husky very emphasis idea album boundary dough group elephant location main\n"
     "prepare smoking express romp amount strike branch tactics various manual darkness clock enemy spit fake human dream priority terminal kitchen\n"
     "prepare smoking garbage romp document eraser kernel space fantasy legal sprinkle teaspoon adorn climate simple story roster laundry lizard season\n"
     "prepare smoking hunting romp armed morning rebuild shaft declare sharp lilac lecture bulge paid smear fatigue burden elephant garlic senior\n"
     "prepare smoking lawsuit romp carpet phantom nylon glimpse frost disease orange patent answer freshman trial fraction laundry insect prayer angel\n"
     "prepare smoking mental romp crystal lamp sidewalk symbolic epidemic shame hour veteran recall mailman craft blanket therapy plot bracelet lend\n"
     "prepare smoking paid romp clay adorn firefly nervous width liquid mailman taste away slow library rescue course mama pencil verdict\n"
     "prepare smoking promise romp depart clogs robin tofu check smith jacket soul numerous client science replace secret distance average alcohol\n"
     "prepare smoking romantic romp easel intend puny scholar trial category brother credit omit prayer webcam wrap eraser mixture regret unfair\n"
     "prepare smoking smith romp chest warn false estate grant acrobat jerky liquid spider husband dominant pile cricket blue kernel fiscal\n"
     "prepare smoking taste romp blimp emperor leaf video answer license criminal disaster steady pancake package evil hunting nylon install hybrid\n"
     "prepare smoking unwrap romp beyond recover gravity marathon beam peanut symbolic listen drift petition adorn steady purchase obtain famous clogs\n"
     "prepare smoking zero romp alpha forecast strategy tackle pleasure dragon military timely pants mixed reward guilt evening founder rebuild jacket\n",
     ""},
    {"desire necklace acrobat echo adult lawsuit blessing inherit moment worthy photo kernel acid soldier burden merit ugly burden hesitate crystal\n"
     "desire necklace acrobat email canyon evoke debris building always slavery parcel coding earth receiver chubby move glad wildlife tadpole vanish\n"
     "desire necklace beard echo amuse aspect increase dwarf armed alarm home ruler flea ugly fishing ceramic voting wrist reunion clothes\n"
     "desire necklace beard email champion paces network afraid infant mobile pregnant desire merit black strategy ceiling move actress thorn view\n",
     ""},
    {"drug taught acrobat leaf crunch rich market snake flame rocky rhythm recall episode swing silver paid island rhythm diploma carpet\n"
     "drug taught acrobat lily dilemma pregnant muscle lips shaped anxiety finger presence presence aircraft agree obesity snapshot profile kidney very\n"
     "drug taught ceramic leaf adjust wavy superior charity grownup verify tricycle pickup decrease race receiver violence quiet idle garden headset\n"
     "drug taught ceramic lily bike spirit fluff tracks example alpha fumes short enemy marathon march frequent broken headset employer decision\n",
     ""},
    {"clothes deal academic acid adjust wavy superior charity grownup verify tricycle pickup decrease race receiver violence quiet reject visual quiet\n"
     "clothes deal academic agency bike spirit fluff tracks example alpha fumes short enemy marathon march frequent broken party spelling trend\n",
     "74be47f276744c0de9fbf53920aa07b3"},
    {"much lunch academic always debris western overall antenna hour burning tension rival describe crystal surface pulse trash document secret shaft\n"
     "much lunch academic aquatic budget aviation eyebrow sled deny withdraw ting voice teammate exceed grill material strike cultural decent fortune\n",
     ""},
    {"aide prospect academic acid depart software obesity pleasure glimpse spray enemy debris explain force wolf junk carve exclude entrance charity\n"
     "aide prospect academic agency brother justice force answer desert tactics extend agency rescue emperor says profile symbolic wrote divorce firm\n",
     "d5bf49bd42641551dc7285e611d436c0"},
    {"game senior academic buyer diet pants genuine industry album merit finger amount credit material entrance elbow dive museum client idea\n"
     "game senior academic cause beard ending grasp trial jewelry method tracks pulse hanger human quantity union photo being deploy game\n",
     "4adcb3b8404c2747047231fe3b844cb7"},
    {"knit enlarge academic discuss calcium prevent salary parking webcam market repeat cradle scroll surprise clothes vocal elevator teaspoon hormone tolerate\n"
     "knit enlarge academic dream champion grin petition buyer exercise champion dragon texture trouble tension fatigue theory negative blind apart replace\n",
     "cf8c7699042e5f490f5875684aa1cf8b"},
    {"drift branch academic desire dress exact rhyme step material keyboard dough much huge fangs negative deal various frost salary boring\n"
     "drift branch academic disease black strike prepare dive meaning loud object fiscal dismiss health clinic boundary remind grant dryer boundary\n"
     "drift branch academic dress chew easy mixture headset animal legs prisoner wireless corner imply emphasis slush angry density camera shadow\n",
     "df530730d1e8f6b96b20e6ff37d2a534"},
    {"best smoking academic cultural cultural ladle victim axis problem advance beyond clothes havoc square unkind soul violence rumor boundary champion\n"
     "best smoking academic decision aluminum airport display amazing victim enemy coastal wrap vocal scared budget knife fragment mama carve rich\n"
     "best smoking academic destroy activity lamp laden laser vintage hunting scared alto episode flea false hesitate amazing shadow lilac traveler\n"
     "best smoking academic dismiss ceiling volume fantasy losing radar typical prize pumps cards critical angry boring dream axle spew tadpole\n"
     "best smoking academic drink desire aide install music salt ordinary fishing scene fumes revenue learn window dynamic regret paces desire\n",
     "d8cb6d74f4c2694e38eb92ef9f813234"},
    {"graduate easy academic charity aluminum yoga debut primary lecture wine oral crystal puny prize various item device fiction paces fumes\n"
     "graduate easy academic closet bulge retailer triumph plot glad twin lamp invasion diagnose obesity chest ambition chest member gums depart\n"
     "graduate easy academic craft away program dilemma patent soul physics plan round kitchen inform friar exceed cargo desire oral flexible\n"
     "graduate easy academic custody downtown holiday briefing group bike threaten advocate eraser living negative body glad large sugar axis adapt\n"
     "graduate easy academic decrease activity careful impulse bulge legend snapshot gravity owner main early museum adjust muscle patrol champion roster\n"
     "graduate easy academic device devote actress nylon fortune cards piece database crazy beard square fragment alarm aluminum adequate slim ancestor\n"
     "graduate easy academic dive curious birthday remove huge mixed lunch making express born ladle editor blimp smear playoff emperor shadow\n"
     "graduate easy academic dryer demand prisoner cluster cleanup devote echo equip ruler explain valid campus alto birthday soldier theory voter\n",
     "e79f0dc7b4f073e93d5971150eebb6fb"},
    {"flexible disaster academic capital artist emphasis garbage broken disease credit step daisy mandate crowd curly preach plot inside sack antenna\n"
     "flexible disaster academic check deploy dining hesitate thorn gross payroll broken parcel coastal owner ting garden evening aide best bolt\n"
     "flexible disaster academic clothes benefit response making estimate crisis observe scandal railroad income manual temple story home silent triumph crisis\n"
     "flexible disaster academic crazy category merit remind injury craft fridge erode wits desert veteran pencil exact profile capital gray aluminum\n"
     "flexible disaster academic cylinder alive justice weapon artist amuse argue program rebuild hamster very various sprinkle smell carpet lips twice\n"
     "flexible disaster academic deliver alto huge capacity estimate desert ceramic dynamic edge visitor orange distance remind beam amuse endorse velvet\n"
     "flexible disaster academic devote axis vitamins admit fragment cluster spark distance envelope gravity magazine ancestor blimp theory acid lend scared\n"
     "flexible disaster academic divorce cinema huge hanger news nuclear decrease warmth slow example walnut tofu warmth duration theater estate havoc\n"
     "flexible disaster academic duckling aircraft inform empty hybrid holiday python family flavor pipeline violence replace slice game hospital shrimp evil\n",
     "8d34a5fe991caa0ef973be9f9de7fd1a"},
    {"detect taught academic already clinic injury leaves brave founder news breathe bulb cards order party costume glad elephant fishing problem\n"
     "detect taught academic antenna camera flash alcohol raspy photo artwork avoid river racism employer mama jerky upgrade texture magazine robin\n"
     "detect taught academic avoid average pants armed grief plains taste endless engage replace satisfy trend lamp tactics listen romp smirk\n"
     "detect taught academic beyond amuse shelter painting upgrade regular cover trip behavior bumpy should mortgage moisture ruin wisdom sweater dryer\n"
     "detect taught academic boundary cards tricycle legend unfair club depart numb clinic terminal cards deadline permit hairy dismiss photo library\n"
     "detect taught academic burden angel dynamic leaves loyalty decision involve mouse medical mixture impulse senior taste husband adorn glad tactics\n"
     "detect taught academic carpet actress pacific frozen firefly helpful canyon slavery mountain moment knife visual rival beaver bishop darkness traffic\n"
     "detect taught academic civil crowd exhaust payroll march repeat promise aluminum injury havoc academic branch amazing require knit junior estate\n"
     "detect taught academic column capture glen fluff omit pancake flame angry spend climate thumb coding junction volume smart corner spill\n"
     "detect taught academic crowd discuss keyboard shelter liquid velvet paid therapy capture capacity holy spew lily segment ruin lyrics ugly\n"
     "detect taught academic daughter dream campus victim adjust snake increase voter cargo intend ambition ting syndrome national parking have sled\n"
     "detect taught academic depict dough acid angel gums glimpse goat employer marvel adequate zero coal escape nail scroll hanger paces\n"
     "detect taught academic dining alcohol priority payroll friendly arena year bulge welfare ounce ruler knife airport award lying dance shadow\n"
     "detect taught academic downtown depart sister fiber diploma dominant random voting ticket gather vitamins sharp acid envelope club shame welcome\n"
     "detect taught academic earth alto club vampire process founder deadline pitch echo slush rapids fitness increase fishing single snapshot item\n",
     "baeca7d1b3e5964d919179d8b5f39b02"},
    {"advance guest academic afraid critical facility headset bucket playoff percent spine legs venture kitchen mixed nylon romp language pacific herald\n"
     "advance guest academic alto change cricket health genius meaning kitchen hybrid flip payroll hawk fake spelling visitor vegan center peanut\n"
     "advance guest academic anxiety closet woman numerous lift building clinic biology lend exhaust guitar intend spew carbon moment adult science\n"
     "advance guest academic award desktop news course divorce funding dryer stick angel fluff born forecast superior climate group activity rebound\n"
     "advance guest academic bike arcade airline regular deliver install remind elder belong unknown fangs cricket traveler geology busy dominant flip\n"
     "advance guest academic bracelet cinema chew stilt minister voter grumpy deny enlarge provide fiber anxiety replace midst taxi peanut lecture\n"
     "advance guest academic burning argue plains join dilemma drove glad brother gray smirk busy timber finger smoking threaten busy overall\n"
     "advance guest academic carve argue lamp animal cleanup lyrics lunar counter holy husky grin crystal orbit acrobat diet decorate general\n"
     "advance guest academic class disaster blimp rumor capital snapshot fawn hour mayor object firm goat fatigue eraser space finance furl\n"
     "advance guest academic company critical theater raspy clogs eyebrow aide modern brother realize safari bedroom weapon exclude scroll viral silver\n"
     "advance guest academic crucial boring thank slice strike dragon cubic aquatic pencil gasoline midst trip airline step ending pistol paid\n"
     "advance guest academic deadline debris window chemical promise mother mountain diet terminal legal total luxury buyer hush agency sugar hospital\n"
     "advance guest academic deploy bike inside segment email umbrella hand trouble elder clogs deal rocky crowd crunch corner ranked violence\n"
     "advance guest academic diploma domain uncover involve away careful founder mineral treat trouble grocery fraction strike lying frost terminal mortgage\n"
     "advance guest academic dragon daisy black sweater view threaten dismiss jewelry nail galaxy frozen vintage unknown miracle pregnant evening sunlight\n"
     "advance guest academic easel cylinder enlarge triumph rebuild inherit slim endorse hybrid flip literary jacket deny spelling loud enjoy always\n",
     "5449b25d08e18ee47f9478b1436a752b"},
    {"grief flea tendency romp daisy research season exercise hush spider tadpole blimp screw swimming math drug uncover traffic cradle imply\n"
     "grief flea vampire romp diet jerky acne column flip ugly toxic check remind round froth modern river oral indicate group\n",
     "5b41b9ae98935c22930c069dfee81e2d"},
    {"ugly prospect space romp away cowboy election superior carpet hobo medical building jump discuss crowd remove similar body negative scroll\n"
     "ugly prospect texture romp center usher adjust garden greatest helpful teaspoon voting prayer amount mixture kind august library belong example\n"
     "ugly prospect velvet romp alto curious firm floral holy iris wireless alarm script kitchen email coal resident epidemic shame moment\n",
     "66eaf34eeb3cafecb4dd61e8b092dd53"},
    {"goat stay jacket romp cinema tactics game voice fantasy roster lawsuit victim system cargo acrobat percent become parking element escape\n"
     "goat stay lying romp earth wrist friar dining change nail making bucket robin lobe traffic enlarge enlarge birthday oasis quantity\n"
     "goat stay network romp cause escape sack leaf scroll metric language vanish burning index negative plains permit sprinkle smoking junk\n"
     "goat stay pitch romp depart mule vitamins domestic secret pregnant skunk always grasp unusual intend ending grasp bucket welfare forbid\n"
     "goat stay reject romp cubic boring evaluate arena involve beard dryer isolate taught image headset dining necklace mason juice wrote\n"
     "goat stay shame romp artwork bishop suitable sidewalk repair daisy best swing oasis aviation dismiss punish sunlight result repair sack\n"
     "goat stay stick romp darkness empty greatest axle acid welcome bedroom starting program texture unhappy saver duckling arena machine warmth\n"
     "goat stay trash romp decorate educate grumpy beaver anatomy knife cleanup advocate energy flame fluff trash loyalty capacity drink patrol\n"
     "goat stay watch romp aunt volume clay erode humidity justice trip argue magazine wavy merit lift exceed easel acquire lift\n",
     "6feb5dda4ebefad16f7fdb3bd22f19b1"},
    {"leader corner award romp device junior general flash inform single replace platform recover devote admit kitchen stadium float large aspect\n"
     "leader corner carve romp belong hanger episode quiet sled chubby exchange exhaust flavor cause seafood pupal enlarge speak mustang fumes\n"
     "leader corner deadline romp always large inmate meaning charity surprise object smear inform lungs reject blimp river scout garlic home\n"
     "leader corner easel romp check rival fiscal overall fumes gesture thorn likely patent flame victim unusual evidence jury rich chew\n"
     "leader corner express romp corner regret thunder garbage else emphasis frost lips lunar premium trial junior legend alarm born flash\n"
     "leader corner garbage romp brave thunder training season daughter grasp envy upstairs member making desktop ambition element alcohol lair orange\n"
     "leader corner hunting romp bracelet learn legs sniff focus endless purple involve work survive mason tendency explain float bundle detect\n"
     "leader corner lawsuit romp alcohol garden pancake sister tofu inherit uncover tofu kidney boring civil payment ceiling prevent careful false\n"
     "leader corner mental romp careful step artwork fiction buyer finger loyalty industry afraid woman broken average earth echo prevent receiver\n"
     "leader corner paid romp disaster photo scholar dwarf disease exclude wireless unusual grill species oven pants living dream duration flexible\n"
     "leader corner promise romp drove debris premium lair fangs budget sister practice bundle formal secret invasion railroad pacific training loud\n"
     "leader corner romantic romp dominant alarm suitable client estate velvet dismiss often debut ceramic jump wrap ocean dive manager carve\n"
     "leader corner smith romp bumpy privacy privacy alpha dive pancake plastic eclipse traveler devote nuclear dough infant fluff should phrase\n"
     "leader corner taste romp adorn orange already national faint armed envelope belong tricycle clinic density game counter frozen adorn armed\n"
     "leader corner unwrap romp bracelet strategy gums cleanup criminal usher meaning superior withdraw omit check empty tactics stay course agency\n"
     "leader corner zero romp aviation busy resident losing crazy result grocery evoke seafood often story lunch bracelet species anxiety pencil\n",
     "3aa266f2d8586463c35eaafb8de4fc27"},
    {"scroll guest acrobat regret depart vexed unkind short famous flip flavor volume much echo parking industry result angel makeup extend\n"
     "scroll guest acrobat result dough radar clogs anxiety mineral prune yoga trip mayor yelp spelling avoid join luxury watch mild\n"
     "scroll guest ceramic radar adult hour necklace volume either excuse easy chew leaf firm teammate wavy havoc material nylon numb\n"
     "scroll guest ceramic regular angry modify shaped overall change rival animal pistol easel inherit finger upstairs human unwrap bundle holiday\n"
     "scroll guest ceramic retailer chest victim race category paces require item receiver trip cubic drove extend pencil course necklace scroll\n",
     "56051ac43979a357920b3803493094e1"},
    {"raisin husband academic briefing duke duration depict painting spelling olympic blimp lily beaver loan leader famous numerous isolate costume traffic\n"
     "raisin husband academic beam august wrap traveler species wildlife actress include frequent being fragment pink vexed velvet clock detect beaver\n"
     "raisin husband academic arena diagnose crisis else mansion paces pulse recall orbit tension blind fluff entrance eraser orbit belong beyond\n"
     "raisin husband academic aide drift sidewalk timely legal ugly breathe bracelet pitch spine obtain twice sprinkle rainbow predator bucket laden\n",
     "6c5eae428bbc566246f91953e37a459a"},
    {"raisin husband academic arena diagnose crisis else mansion paces pulse recall orbit tension blind fluff entrance eraser orbit belong beyond\n"
     "raisin husband academic briefing duke duration depict painting spelling olympic blimp lily beaver loan leader famous numerous isolate costume traffic\n"
     "raisin husband academic acquire dragon bumpy ancient testify phantom grumpy expect replace upgrade energy research orbit scramble salt critical ocean\n"
     "raisin husband academic black branch member multiple dryer sprinkle advocate idea photo march recover craft being ivory lobe wine submit\n",
     "6c5eae428bbc566246f91953e37a459a"},
    {"raisin husband academic black branch member multiple dryer sprinkle advocate idea photo march recover craft being ivory lobe wine submit\n"
     "raisin husband academic briefing duke duration depict painting spelling olympic blimp lily beaver loan leader famous numerous isolate costume traffic\n"
     "raisin husband academic acquire dragon bumpy ancient testify phantom grumpy expect replace upgrade energy research orbit scramble salt critical ocean\n"
     "raisin husband academic aide drift sidewalk timely legal ugly breathe bracelet pitch spine obtain twice sprinkle rainbow predator bucket laden\n",
     "6c5eae428bbc566246f91953e37a459a"},
    {"academic academic academic acquire academic academic academic academic academic academic academic academic academic academic academic academic academic artwork window grasp\n"
     "academic academic academic aide academic academic academic academic academic academic academic academic academic academic academic academic academic negative charity mild\n"
     "academic academic academic ambition check ultimate starting submit losing fluff payroll segment decent founder warmth luxury huge merchant inform garbage\n"
     "academic academic academic arena dominant treat satoshi ladle acid epidemic greatest born adjust shrimp spine toxic sled maximum piece cluster\n",
     "ce6bf76687a36d0de20d0cf077089760"},
    {"academic academic academic acquire easel zero zero zero zero zero zero zero zero zero zero zero zero frost terminal retreat\n"
     "academic academic academic aide easel zero zero zero zero zero zero zero zero zero zero zero zero senior dish episode\n"
     "academic academic academic ambition benefit syndrome species column anxiety being formal stick firefly fortune counter cinema dwarf frozen canyon award\n"
     "academic academic academic arena arcade stay expand elbow depend repair python improve vanish lunar snake herd disease sharp year violence\n",
     "8730ede0b660a6cd72c90f90031dac86"},
    {"academic academic academic acquire acid acrobat again away echo acrobat again away echo acrobat again away echo early simple human\n"
     "academic academic academic aide acid acrobat again away echo acrobat again away echo acrobat again away echo plunge beaver object\n"
     "academic academic academic ambition clothes coal vanish lunch leaf pants zero galaxy swing recall flea purple platform piece budget craft\n"
     "academic academic academic arena charity destroy violence olympic roster pipeline yelp graduate genuine meaning plunge maiden duration national debris multiple\n",
     "c530490645a7b297f3b72af92ce9d82d"},
    {"midst pink academic academic academic academic academic academic academic academic academic academic academic academic academic academic academic energy capture satisfy\n",
     "943a0a6e09888279854698300faadf8e"},
    {"junk extend academic academic credit military curious peaceful nylon market patent luxury mailman deny estate capture review rocky aviation pitch\n",
     "84defbe1a2ee909c85f50197de64e881"},
    {"heat romp academic academic alto dish beard damage filter pipeline pitch prize froth greatest clock behavior column false gray hormone rebound expect segment raspy moisture amount scandal focus rescue eclipse daughter emerald smith\n",
     "34ea3887befae1ae9c34abd94dab14c89600026c7f061d56276bde132d36aaba"},
    {"decision race academic academic duke infant force eraser square space fawn sheriff island else likely museum broken divorce ancestor grocery\n",
     "a4288328d950c19073ccba5e8f164462"},
    {"submit moment academic academic advocate greatest airport density justice include calcium triumph describe pitch lift username trash advance lunar rich work slush pumps finance physics gesture legal universe program finance infant swimming mayor\n",
     "6d59bfe51093b18fde7b49e49b1c54074ca80cb787ded8ffbf81bb4a918a9ceb"},
    {"fiction always academic academic desert nylon vampire level says cargo modern darkness manager aircraft election chest alarm temple prisoner western\n",
     "ee8abf3a09f061de639cc3c36f41f9ce"},
    {"critical discuss academic academic apart painting grasp ultimate yoga smell oral depart visual undergo hanger increase source hunting cluster profile yield segment impulse echo reunion view install spine prevent temple gather market twin\n",
     "d55fb41cfdefd0fddc14e9997161765c11f0d88341b131169faa5f794fac5bbd"},
    {"buyer vexed academic academic breathe tricycle forward critical voice prisoner filter isolate meaning order acid ladybug puny impact fancy cradle\n",
     "ad628a1d5f1ca1966ebf88818263a81e"},
    {"dive withdraw academic academic activity video strategy reaction black photo short column gather moisture funding indicate pumps receiver debut render inform adjust guard salon beam river nervous manual tadpole program unfold keyboard painting\n",
     "07ffd2ba3227de166c5fe8b85d665994e3dbf4fcce636c097d672b6ea4a6c636"},
    {"acrobat username academic academic critical edge clock large robin large station cubic paper license floral geology academic beard mouse omit\n",
     "c6c50ab7a19a5324df7a2c92ce86f753"},
    {"domain eclipse academic academic average avoid replace wisdom fitness thank august award dramatic wavy vintage forbid emphasis belong scroll husky pulse greatest necklace detailed execute romp retreat permit sugar beard velvet intend walnut\n",
     "607dd3c864a04b1240adc97580710f6c4280785b442c807ae1c9dd278adbfdac"},
    {"subject cage academic academic arena guard voter medal estate royal surprise chest losing fact category champion genius identify volume activity\n",
     "790f87587a14e5142fbe94090d468ea4"},
    {"deploy lips academic academic aircraft pecan rival friar cowboy patrol dress smirk beyond loud bundle desktop anxiety bulge yelp exceed fitness yelp hamster amuse credit frequent smoking join temple aircraft carpet alive example\n",
     "e74cc4bbc304ca7c5bc08672540313a622d5fd005fa494c5dcc99595da5699ea"},
    {"clay shame academic academic dining remind permit estate spark thunder both realize devote screw inform edge obesity coding early document\n",
     "89d9b28738a9e228d23c9349a4a133b8"},
    {"luxury center academic academic average salary frost woman campus filter marvel location mailman paces sister luck mother counter junk pharmacy bedroom sheriff loud grumpy course furl climate squeeze frozen mayor inmate ordinary type\n",
     "3e47fed3709688de31e46ebbd9acae7391dc473fff468319383234d0ecd9ef2f"},
    {"retreat skunk academic academic coastal western fancy nail darkness campus inside fused satisfy material aviation increase testify clinic finger thumb\n",
     "94b4e39f569b8b3df0dcad92ab2a571f"},
    {"rival arena academic academic arena organize dragon watch herald deal crazy wrote crystal cage party deliver soldier relate fused very carve crowd closet sunlight math species pajamas breathe task maiden grant pacific laundry\n",
     "ebd8bbb8060b9ac1c67b19a0768a9c5166dd12980c9ff894956733dbbde9dd25"},
    {"academic academic academic academic drug dragon main arcade leaves thumb playoff music join founder mixture image herd aluminum scroll thunder\n",
     "07cbe49aff39cde6e7a5a210e29b0294"},
    {"academic aluminum academic academic drug dragon main arcade leaves thumb playoff music join founder mixture image herd holy fumes rumor\n",
     "f4c9a7e8f44b08bc4952e451f06c3d3e"},
    {"adapt walnut academic academic drug dragon main arcade leaves thumb playoff music join founder mixture image herd bolt alarm album\n",
     "51e3a1418a12ee2cc2b0072c40e83508"},
    {"adequate academic academic academic drug dragon main arcade leaves thumb playoff music join founder mixture image herd vanish disease radar\n",
     "df06aaf2ff86a615f1f3aead6f863440"},
    {"adequate away academic academic drug dragon main arcade leaves thumb playoff music join founder mixture image herd distance answer worthy\n",
     "cd95b21f0201756d8b0c1940583cf980"},
    {"again aluminum academic academic drug dragon main arcade leaves thumb playoff music join founder mixture image herd ocean painting glad\n",
     "e12883b8d387aa0db00d7dc5b2fd986e"},
    {"leader academic academic academic drug dragon main arcade leaves thumb playoff music join founder mixture image herd wine diminish pink\n",
     "8c4a0aa6b75027be8d8d03036aa9710a"},
    {"zero walnut academic academic drug dragon main arcade leaves thumb playoff music join founder mixture image herd buyer vegan ecology\n",
     "f14d6cf69001755fd2e8d14e92744f62"},
    {"academic again academic academic drug dragon main arcade leaves thumb playoff music join founder mixture image herd bundle junction lunch\n",
     "edf87be7c0281285d702c5bd9bff19b8"},
    {"academic apart academic academic drug dragon main arcade leaves thumb playoff music join founder mixture image herd lamp terminal prepare\n",
     "edf87be7c0281285d702c5bd9bff19b8"},
    {"adapt wisdom academic academic drug dragon main arcade leaves thumb playoff music join founder mixture image herd ajar render headset\n",
     "edf87be7c0281285d702c5bd9bff19b8"},
    {"adequate again academic academic drug dragon main arcade leaves thumb playoff music join founder mixture image herd temple lips strategy\n",
     "edf87be7c0281285d702c5bd9bff19b8"},
    {"adequate biology academic academic drug dragon main arcade leaves thumb playoff music join founder mixture image herd criminal rebuild method\n",
     "edf87be7c0281285d702c5bd9bff19b8"},
    {"again apart academic academic drug dragon main arcade leaves thumb playoff music join founder mixture image herd lying busy avoid\n",
     "edf87be7c0281285d702c5bd9bff19b8"},
    {"leader again academic academic drug dragon main arcade leaves thumb playoff music join founder mixture image herd trash manager scholar\n",
     "edf87be7c0281285d702c5bd9bff19b8"},
    {"zero wisdom academic academic drug dragon main arcade leaves thumb playoff music join founder mixture image herd average exhaust custody\n",
     "edf87be7c0281285d702c5bd9bff19b8"},
    {"repeat moment academic agency aunt daughter jerky impact inside slavery alto fridge receiver fancy style slush toxic tactics bracelet shelter\n"
     "repeat moment academic always deploy calcium ending exclude sack pink roster shaped submit pitch silent income academic float yoga recover\n",
     "ff492f561e9c906fd35a226a5c39dc19"},
    {"preach necklace academic agency acid texture crisis ranked amuse prayer album detect genius guilt crystal short morning repeat galaxy blue penalty skin\n"
     "preach necklace academic always adult spark forbid program rocky vitamins decent solution main fatigue junior regular lungs improve market duke fiction dismiss\n",
     "4ec009fc2ba773925ddccd61a0ec489e706e"},
    {"dress golden academic agency buyer destroy rich charity fancy sprinkle activity closet swing painting royal saver material obesity paces punish replace friendly auction\n"
     "dress golden academic always lying elegant craft multiple domain failure garden dilemma recall alien public medical coal galaxy helpful pacific lilac brave elevator\n",
     "6fb178f869bca2b75a8ab9b68683f4267ad79f76"},
    {"course pink academic agency amuse darkness plastic sidewalk daisy picture ceramic shaft empty that metric scared purchase rocky secret hesitate manual envy flip jerky fishing\n"
     "course pink academic always alpha smith premium fiber primary temple chew herald marathon admit transfer health filter fridge prize devote duration shame paces friendly rebound\n",
     "c90fa2c26497fa5460cfbde428cddd12cc29f6c7b848"},
    {"license keyboard academic agency acid triumph rhythm repeat picture debut mixed triumph elevator papa blimp answer sidewalk grin display silver wealthy skin machine detailed screw cover enlarge\n"
     "license keyboard academic always acid review idle pupal health tension camera paces robin tidy tolerate lunch lamp twice strike sweater modify prisoner invasion tricycle market bishop ruin\n",
     "d969a4e797bf8a90216aed06b8f9d26f699ea2add6841758"},
    {"actress enlarge academic agency darkness desire favorite deploy prevent browser heat carve sniff domain lend escape havoc hearing merchant quantity slavery pharmacy veteran swing funding angel standard stay\n"
     "actress enlarge academic always behavior rich scout taught victim increase ranked intend lift presence general sugar duration space railroad veteran bulb chew year magazine skin silent romantic sweater\n",
     "2cb2d519f2e52c518e94622286613fe29870f9bb03267106449b"},
    {"observe busy academic agency adapt theory level sister duration evaluate credit together equip impact harvest flavor lobe floral trash founder family hawk enlarge python clay withdraw sunlight pistol ordinary herd\n"
     "observe busy academic always adorn holiday adequate luck subject tackle darkness pumps detect lair fiction game duration numb mobile graduate tolerate quantity that triumph hanger trip browser fangs enemy sweater\n",
     "9283be4f0b29b7767175dfeba8cb7dfd5a09042b3af015e32f6a54b3"},
    {"various necklace academic agency camera pharmacy acquire shaft salon adult grasp carpet thunder costume national soul costume answer gather pistol loan mineral wildlife explain literary explain daisy duke filter gravity junior\n"
     "various necklace academic always company shelter imply fatigue frequent roster acid moment amuse aspect orange license step mixture item aircraft frozen aviation impulse sugar crowd pupal erode justice olympic quick idea\n",
     "639a242dd5715b2ccb053f4206627af0b167ebdfa20f9e3c250eda5b74cb"},
    {"leaf wisdom academic agency anatomy body genre stay python angel strategy crucial unknown goat evening ceramic method laser deny spend pharmacy calcium flea remember advance result year party funding cubic transfer visitor similar\n"
     "leaf wisdom academic always again length judicial ting order benefit elegant peanut cradle magazine density believe meaning echo arena impulse writing fawn cage execute belong premium infant increase sniff arena database unwrap zero\n",
     "19091e3b971e0899ecc3e76ae6b6fb4351066baeea3432ac49297db814ccc45c"},
    {"easy stay academic agency acquire move mustang spray firefly busy numb music leader salon recover ruler thank glen finger nylon tension vitamins guest satoshi valid anxiety amazing legend suitable response various beyond carve pacific anxiety\n"
     "easy stay academic always acid hobo devote alarm glen extra yoga task much smith large medal trial grumpy envy living style plunge shaped racism display garden fatigue aquatic glad peanut humidity memory airline switch reunion\n",
     "5ee95e47d3e7dc97745b5a1445475840e5e14f0043ea48aba717d7652fd6e46f1963"},
    {"type veteran academic agency humidity coastal quiet bolt duke purple dynamic biology national mobile unfair artwork rival salary keyboard leaves method clinic adorn mixture unfair income recall yield short lamp expand alien exceed drink slush painting born playoff snapshot\n"
     "type veteran academic always valuable method very union favorite aunt task juice curly breathe disease wolf library deny desire total image hospital rich grief parcel scene heat phantom hunting carbon merit dance ting memory remember dance aspect hush voter\n",
     "ce2b21323cb3076fd74f477d8c037ff9aea89f0caf88648141763b2d2e566f35c8b1be610b8683ae"},
    {"sidewalk pregnant academic agency activity detect join auction boring item uncover pistol grumpy prize corner venture facility belong plains steady software year reunion nail miracle sniff pistol rumor satisfy guilt news math sugar darkness radar agency sympathy helpful rescue goat mason rhythm moisture disaster enlarge camera\n"
     "sidewalk pregnant academic always adequate detect ancestor problem nuclear style aide cluster bundle frequent negative weapon maximum rapids spew credit ticket romp freshman guitar email speak jury downtown fluff surface software luxury cards detailed alien ancient dress junior alto news curious blanket render lizard cylinder phrase\n",
     "1238eedb5b8e89a0c1902ef10b6f441875185e7684cda96fb94520699cc8cbc495b8e3ad06f8c26708e0dd0bc18bad0a"},
    {"subject heat academic agency category vocal midst that hour detailed smith physics easel energy ladybug unknown short obesity loyalty tracks cylinder prisoner empty ceiling crazy faint clock dining advocate artist mailman estate discuss midst spine mustang marvel debut friar laser pistol corner marvel cubic survive liberty stay segment database loud elevator ultimate\n"
     "subject heat academic always early grownup burden geology hanger elevator geology enlarge umbrella browser evil galaxy breathe branch drink secret cricket order beyond domestic short switch squeeze move universe regular blue oasis prevent cricket epidemic false spine sharp general loan headset segment luck prize database ending large obesity garlic hearing filter clothes\n",
     "8b57de9fa5e71bcde46f5376f392dcc5d21a4081cb0effd779e3385c63748b345a32c118a07b95454a0bc936945c240c2a8dc4d19edaedcc"},
    {"treat manual academic agency endless story racism superior satoshi ticket promise black garlic rival group hormone pile type marathon lying coal speak capacity bucket sister general staff plastic scatter peasant profile fatigue victim flip emission dragon grasp cowboy kitchen minister owner greatest enemy tenant chest slap nuclear elephant plains punish timber stadium tidy manager curious\n"
     "treat manual academic always veteran revenue behavior obtain husband infant fluff revenue terminal health kind health negative medal crystal worthy mouse coding calcium facility unusual miracle pregnant single wavy bucket diet lamp rocky silver rapids liberty maiden findings slush junk party lend temple extend seafood bolt usher timely image flash increase spray payment duke wits\n",
     "e5e57a5447c79c283f550463ef8f672c8b8e99f42050404f18dcbb33a5f5f3c8d43f80d35a5a337f111891a4337aa8a1d48ff2bb161f329bd69ee9b4"},
    {"leader husband academic agency award frost recover scandal preach argue fawn famous birthday helpful quantity domain diploma include wine enforce merit species hybrid cause predator verdict fumes mild package frozen lilac scout ocean oven teammate story vitamins idle destroy fumes omit injury upstairs guitar midst painting width friendly escape canyon funding peasant geology evening hybrid prune spider\n"
     "leader husband academic always argue enforce genuine rhythm hunting deadline execute puny divorce extend mobile exercise exact editor pleasure anatomy ugly platform helpful bundle express snake wrote grief member sweater negative peasant climate remind warn extra execute testify bumpy system magazine smear wealthy shame arena hesitate very strategy endless peanut pistol bolt relate device true join resident\n",
     "f648d29d6935eabf6e7dc6592d724ca9525f87491fe55fe92c48399a952f46b38b0427f06b2d97cb4b01d9221e36ced5ff367b7757164e58d0a239cc46af"},
    {"judicial golden academic agency acne grownup surprise deliver tactics pacific friar staff ancestor leaves paces famous market organize oasis member science software wine vanish artwork purple canyon short muscle surface axis umbrella hunting headset overall shadow estate best makeup space disaster anatomy warmth analysis require organize racism rival elite alive enforce clogs wolf oven eclipse trial force regular exact\n"
     "judicial golden academic always acid receiver tricycle impulse military aunt luxury voice keyboard busy romp speak legal pharmacy merit large fishing orbit harvest unfold havoc machine epidemic vocal sister decrease pants float briefing tension that aviation treat pancake pulse auction spend costume alto river peasant listen mobile romp cover breathe fortune quantity gray become material expand mule view smith\n",
     "7af1a57b6b8c63ceab7fe4543ac65abbd747030a7edfca3a0b983325cb8383185e7d4e4c44825ba4bfac893138842adfc397aaade4c7c2560b0e76692fc14dce"},
    {"member deal academic agency charity sheriff twin scholar strategy relate join manager detect album carpet desire mandate kernel vexed predator\n"
     "member deal academic always dive hush unusual physics shelter acrobat training actress geology decent junction rumor cargo engage medical salary\n",
     "0000000093c1d7118d3c33bfab50c659"},
    {"human corner academic agency cubic flame escape aviation evil dilemma petition shame reward closet rival average freshman bulge award breathe\n"
     "human corner academic always distance jewelry slush darkness science anxiety paper fancy salon primary rebuild join brother maiden switch black\n",
     "93c1d7118d3c33bfab50c65900000000"},
    {"mild upgrade academic agency ajar view arena helpful fawn sister frost premium civil umbrella visual epidemic amount peanut stadium petition\n"
     "mild upgrade academic always detailed adorn single western rocky program salary oasis adult floral darkness surprise adjust drug jerky demand\n",
     "00000000000000000000000000000000"},
};

static int differences;
static char text[SHAMIR_MNEMONICS_BYTES_MAX];

static void expect(const char *what, int is_right)
{
    if (!is_right) {
        printf("%s: another answer than is right\n", what);
        differences = 1;
    }
}

/* Returns whether a call succeeded and wrote this text. */
static int wrote(shamir_answer answer, const char *right)
{
    return answer.code == SHAMIR_DONE && answer.written == strlen(right) && memcmp(text, right, strlen(right)) == 0;
}

static size_t bytes_of(const char *digits, uint8_t *bytes)
{
    static const char all[] = "0123456789abcdef";
    size_t i;

    for (i = 0; digits[2 * i]; i++)
        bytes[i] = (uint8_t)((strchr(all, digits[2 * i]) - all) << 4 | (strchr(all, digits[2 * i + 1]) - all));
    return i;
}

static void check_vector(const vector *it)
{
    uint8_t right[SHAMIR_SECRET_BYTES_MAX], secret[SHAMIR_SECRET_BYTES_MAX];
    size_t bytes = bytes_of(it->secret, right);
    shamir_answer answer = shamir_recover(
        it->lines, strlen(it->lines), KEY, strlen(KEY), SHAMIR_EXPONENT_MAX, "", 0, secret, sizeof secret);

    if (bytes)
        expect(it->lines, answer.code == SHAMIR_DONE && answer.written == bytes && memcmp(secret, right, bytes) == 0);
    else
        expect(it->lines, answer.code > SHAMIR_E_HIGH_EXPONENT && answer.written == 0);
}

static void check_creation(void)
{
    uint8_t secret[SHAMIR_SECRET_BYTES_MAX], chance[SHAMIR_RANDOM_BYTES_MAX];
    size_t bytes = bytes_of(SECRET, secret), count = bytes_of(RANDOM, chance);
    shamir_answer needed = shamir_random_needed(PLAN, strlen(PLAN), bytes);

    expect("shamir_random_needed", needed.code == SHAMIR_DONE && needed.first == count);
    expect("shamir_create",
           wrote(shamir_create(PLAN, strlen(PLAN), secret, bytes, KEY, strlen(KEY), 0, 0, chance, count, text, sizeof text),
                 FIRST SECOND THIRD FOURTH FIFTH));
    expect("shamir_create with another flag",
           shamir_create(PLAN, strlen(PLAN), secret, bytes, KEY, strlen(KEY), 0, 2, chance, count, text, sizeof text).code ==
               SHAMIR_E_OUT_OF_RANGE);
    expect("shamir_fingerprint", wrote(shamir_fingerprint(secret, bytes, text, sizeof text), "df41d8fe"));
}

/* Another program computed the encrypted secret, and the texts that the rounds leave. */
static void check_encrypted(void)
{
    static const char two[] = FOURTH FIFTH;
    static const char *const texts[] = {
        SECRET, "7b3377e2884ece1fba37d9cc21b2cece", "5ba74e3c43bc2c757b3377e2884ece1f", "04447ff0a4a32f695ba74e3c43bc2c75"};
    uint8_t right[SHAMIR_SECRET_BYTES_MAX], value[SHAMIR_SECRET_BYTES_MAX], secret[SHAMIR_SECRET_BYTES_MAX];
    size_t bytes = bytes_of("ae3283670d8226e104447ff0a4a32f69", right);
    shamir_parameters parameters;
    shamir_answer answer = shamir_encrypted(two, strlen(two), &parameters, value, sizeof value);
    uint8_t round;

    expect("shamir_encrypted", answer.code == SHAMIR_DONE && answer.written == bytes && memcmp(value, right, bytes) == 0 &&
           parameters.id == 1 && parameters.extendable == 0 && parameters.exponent == 0);
    answer = shamir_decrypt(&parameters, value, bytes, KEY, strlen(KEY), "df41d8fe", 8, secret, sizeof secret);
    bytes = bytes_of(SECRET, right);
    expect("shamir_decrypt", answer.code == SHAMIR_DONE && answer.written == bytes && memcmp(secret, right, bytes) == 0);
    for (round = 4; round-- > 0; memcpy(value, secret, bytes)) {
        answer = shamir_decrypt_round(&parameters, round, value, bytes, KEY, strlen(KEY), secret, sizeof secret);
        (void)bytes_of(texts[round], right);
        expect("shamir_decrypt_round", answer.code == SHAMIR_DONE && answer.written == bytes && memcmp(secret, right, bytes) == 0);
    }
    answer = shamir_decrypt_round(&parameters, 4, value, bytes, KEY, strlen(KEY), secret, sizeof secret);
    expect("shamir_decrypt_round with a fifth round", answer.code == SHAMIR_E_OUT_OF_RANGE);
}

static void check_reading(void)
{
    static const char four[] = FIRST SECOND FOURTH, without[] = "academic aluminum acrobat leaf buyer drink heat negative damage union "
                                                                "purchase photo inmate training amazing yield bucket wrote mule ?";
    static const char extendable[] = "enemy favorite academic acid cowboy phrase havoc level response walnut budget painting inside trash adjust "
                                     "froth kitchen learn tidy punish\nenemy favorite academic always academic sniff script carpet romp kind "
                                     "promise scatter center unfair training emphasis evening belong fake enforce\n";
    static const uint8_t chance[] = {0x12, 0x34};
    uint8_t value[SHAMIR_SECRET_BYTES_MAX];
    shamir_judgement judgement;
    shamir_parameters parameters;
    shamir_share share;
    shamir_answer answer = shamir_parse(FIRST, strlen(FIRST) - 1, &share, value, sizeof value);

    expect("shamir_parse", answer.code == SHAMIR_DONE && answer.written == 16 && share.id == 1 && share.extendable == 0 &&
           share.exponent == 0 && share.group_index == 0 && share.group_threshold == 2 && share.group_count == 3 &&
           share.member_index == 0 && share.member_threshold == 2);
    answer = shamir_parse(SECOND, strlen(SECOND) - 1, &share, NULL, 0);
    expect("shamir_parse without a room", answer.code == SHAMIR_E_TOO_SHORT && answer.first == 16 && share.member_index == 1);
    expect("shamir_status", wrote(shamir_status(four, strlen(four), text, sizeof text),
           "groups 2 of 2\ngroup 0 members 2 of 2 0.0+0.1\ngroup 1 members 1 of 1 1.0\n"));
    answer = shamir_judge(four, strlen(four), THIRD, strlen(THIRD) - 1, &judgement, text, sizeof text);
    expect("shamir_judge", answer.first == 2 && answer.second == 2 && judgement.share.member_index == 2 && judgement.again == 0 &&
           wrote(answer, "groups 2 of 2\ngroup 0 members 3 of 2 0.0+0.1+0.2\ngroup 1 members 1 of 1 1.0\n"));
    answer = shamir_quorums(four, strlen(four));
    expect("shamir_quorums", answer.code == SHAMIR_DONE && answer.first == 1 && answer.written == 0);
    expect("shamir_drill", wrote(shamir_drill(four, strlen(four), KEY, strlen(KEY), SHAMIR_EXPONENT_MAX, "", 0, 9, SHAMIR_FORM_DIGITS,
           "", 0, text, sizeof text), "0.0+0.1+1.0 " SECRET "\nend\n"));
    expect("shamir_reissue", wrote(shamir_reissue(PLAN, strlen(PLAN), "0.2", 3, four, strlen(four), text, sizeof text), THIRD));
    expect("shamir_resplit", wrote(shamir_resplit("1of1", 4, extendable, strlen(extendable), chance, sizeof chance, text, sizeof text), ANEW));
    answer = shamir_encrypted(extendable, strlen(extendable), &parameters, value, sizeof value);
    expect("shamir_create_from_encrypted", wrote(shamir_create_from_encrypted("1of1", 4, &parameters, value, (size_t)answer.written,
           chance, sizeof chance, text, sizeof text), ANEW));
    expect("shamir_repair", wrote(shamir_repair(without, strlen(without), text, sizeof text), FIRST));
    expect("shamir_words", wrote(shamir_words("em", 2, text, sizeof text), EM));
}

static void check_telling(void)
{
    shamir_answer refused = shamir_words("", 0, NULL, 0);

    expect("a buffer that is too short", refused.code == SHAMIR_E_TOO_SHORT && refused.first == SHAMIR_WORDS_BYTES_MAX);
    expect("shamir_text", wrote(shamir_text(&refused, text, sizeof text), "buffer too short: 7231 bytes needed"));
    expect("shamir_version", wrote(shamir_version(text, sizeof text), SHAMIR_VERSION));
    shamir_wipe(text, sizeof text);
    expect("shamir_wipe", text[0] == 0 && memcmp(text, text + 1, sizeof text - 1) == 0);
}

int main(void)
{
    size_t i;

    for (i = 0; i < sizeof vectors / sizeof vectors[0]; i++)
        check_vector(&vectors[i]);
    check_creation();
    check_reading();
    check_encrypted();
    check_telling();
    if (!differences)
        printf("%u vectors and an example of each call: all answers are right\n", (unsigned)(sizeof vectors / sizeof vectors[0]));
    return differences;
}
